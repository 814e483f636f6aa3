// What the user has set by variables of the environment, as both recorders read it.
#ifndef GPURACE_RECORDER_ENVIRONMENT_H
#define GPURACE_RECORDER_ENVIRONMENT_H

#include "window.h"

#include <cstdio>
#include <cstdlib>
#include <fstream>

namespace gpurace {

// The program is ended where it can't be understood.
[[noreturn]] inline void refuse_setting(const char *name, const char *wanted) {
    std::fprintf(stderr, "gpurace-recorder: GPURACE_%s must be %s\n", name, wanted);
    std::_Exit(3);
}

// The text, the number and the groups that the variable GPURACE_NAME has.
inline std::string setting(const char *name, const std::string &otherwise = "") {
    const char *value = std::getenv(("GPURACE_" + std::string(name)).c_str());
    return value && *value ? value : otherwise;
}
inline uint64_t number_setting(const char *name, uint64_t otherwise = 0) {
    const std::string text = setting(name);
    if (text.empty()) return otherwise;
    if (text.size() > 19 || text.find_first_not_of("0123456789") != std::string::npos) refuse_setting(name, "a number");
    return std::stoull(text);
}
inline Window window_setting(const char *name) {
    Window window;
    const std::string text = setting(name);
    if (!text.empty() && !window.parse(text)) refuse_setting(name, Window::FORM);
    return window;
}

// The first line of the file that GPURACE_LABEL names now, which says which test makes a launch; or nothing.
inline std::string test_label() {
    std::string line;
    std::ifstream given(setting("LABEL", "/dev/null"));
    std::getline(given, line);
    return line;
}

} // namespace gpurace
#endif
