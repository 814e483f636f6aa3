#include "layer.h"

#include <dlfcn.h>
#include <fcntl.h>
#include <filesystem>
#include <fstream>
#include <spawn.h>
#include <sstream>
#include <sys/wait.h>
#include <unistd.h>

extern char **environ;

namespace gpurace {
namespace {

using Words = std::vector<std::string>;
namespace files = std::filesystem;

bool starts(const std::string &word, const std::string &with) { return word.rfind(with, 0) == 0; }

// The words of build options: double quotes and backslashes as a shell has them.
Words words_of(const std::string &text) {
    Words words;
    std::string word;
    bool is_quoted = false, has_word = false;
    for (size_t at = 0; at < text.size(); at++) {
        const char letter = text[at];
        if (letter == '"') is_quoted = !is_quoted, has_word = true;
        else if (letter == '\\' && at + 1 < text.size()) word += text[++at], has_word = true;
        else if (!std::isspace(static_cast<unsigned char>(letter)) || is_quoted) word += letter, has_word = true;
        else if (has_word) words.push_back(word), word.clear(), has_word = false;
    }
    if (has_word) words.push_back(word);
    return words;
}

// Runs a tool, and answers whether it succeeded. What it says goes into a file.
bool run(const Words &words, const std::string &log) {
    std::vector<char *> pointers, variables;
    for (const std::string &word : words) pointers.push_back(const_cast<char *>(word.c_str()));
    pointers.push_back(nullptr);
    for (char **each = environ; *each; each++) // the tools are no part of what is recorded
        if (!starts(*each, "LD_PRELOAD=") && !starts(*each, "OPENCL_LAYERS=")) variables.push_back(*each);
    variables.push_back(nullptr);
    posix_spawn_file_actions_t actions;
    posix_spawn_file_actions_init(&actions);
    posix_spawn_file_actions_addopen(&actions, 1, log.c_str(), O_WRONLY | O_CREAT | O_APPEND, 0666);
    posix_spawn_file_actions_adddup2(&actions, 1, 2);
    pid_t child;
    const int error = posix_spawnp(&child, pointers[0], &actions, nullptr, pointers.data(), variables.data());
    posix_spawn_file_actions_destroy(&actions);
    if (error) return std::ofstream(log, std::ios::app) << words[0] << ": " << std::strerror(error) << '\n', false;
    int status = 0;
    while (waitpid(child, &status, 0) < 0) {
        if (errno == EINTR) continue;
        return true; // the program waits for all its children itself; a file that is missing shows a failure
    }
    return status == 0;
}

// The processor that is compiled for, and the name of pocl's builtins for it.
struct Processor { const char *name, *builtins; };
Processor processor() {
    __builtin_cpu_init();
    const bool has_avx512 = __builtin_cpu_supports("avx512vl") && __builtin_cpu_supports("avx512dq");
    if (has_avx512 && __builtin_cpu_supports("avx512bw")) return {"skylake-avx512", "avx512"};
    if (__builtin_cpu_supports("avx2") && __builtin_cpu_supports("fma")) return {"haswell", "avx2"};
    return {"x86-64", "sse2"};
}
// The file of this library, in whose folder the instrumenting pass is.
files::path own_path() {
    Dl_info info;
    dladdr(reinterpret_cast<void *>(&own_path), &info);
    return info.dli_fname;
}
std::string instrumenter() { return own_path().parent_path() / "instrument-kernels"; }
std::string builtins() { return settings().builtins + "/kernel-x86_64-pc-linux-gnu-" + processor().builtins + ".bc"; }

Words features_of(cl_device_id device) {
    Words names;
    for (const auto &feature : list_of<cl_name_version>(driver.clGetDeviceInfo, device, CL_DEVICE_OPENCL_C_FEATURES))
        names.push_back(feature.name);
    return names;
}

// What the compiler may use: the device's extensions and features, and no others.
std::string extensions_of(cl_device_id device) {
    std::string list = "-cl-ext=-all";
    std::istringstream names(text_of(driver.clGetDeviceInfo, device, CL_DEVICE_EXTENSIONS));
    for (std::string name; names >> name;)
        if (name.rfind("cl_khr_", 0) == 0) list += ",+" + name;
    for (const std::string &feature : features_of(device)) list += ",+" + feature;
    return list;
}

// The options of a unit, as the driver's own compile has them.
Words unit_options(const Unit &unit, const Words &features) {
    Words given = words_of(unit.options), options;
    bool has_standard = false;
    for (size_t at = 0; at < given.size(); at++) {
        const std::string &word = given[at];
        if (word == "-x" || word == "-s") { at++; continue; }
        if (word == "-create-library" || word == "-enable-link-options") continue;
        if (starts(word, "-spir-std") || starts(word, "-cl-nv")) continue;
        has_standard = has_standard || starts(word, "-cl-std=");
        if (word == "-cl-fast-relaxed-math") options.push_back("-D__FAST_RELAXED_MATH__=1");
        if (word == "-cl-std=CL3.0") // of some features the headers alone have the macros
            for (const std::string &feature : features) options.push_back("-D" + feature + "=1");
        options.push_back(word);
    }
    if (!has_standard) options.push_back("-cl-std=CL1.2");
    return options;
}

Words compiler_options(cl_device_id device) {
    const std::string headers = settings().builtins + "/include/";
    const std::string version = text_of(driver.clGetDeviceInfo, device, CL_DEVICE_VERSION) + "          "; // OpenCL 3.0 ..
    const std::string number = version[7] >= '1' ? std::string{version[7], version[9], '0'} : "120";
    const auto most_variables = info_of<size_t>(driver.clGetDeviceInfo, device, CL_DEVICE_MAX_GLOBAL_VARIABLE_SIZE);
    Words words = {"-x", "cl", "-target", "x86_64-pc-linux-gnu", std::string("-march=") + processor().name,
                   "-Xclang", "-ffake-address-space-map", "-Xclang", "-no-opaque-pointers", "-Xclang",
                   extensions_of(device), "-D__OPENCL_VERSION__=" + number, "-D__ENDIAN_LITTLE__=1",
                   "-D__IMAGE_SUPPORT__=1", "-DPOCL_DEVICE_ADDRESS_BITS=64", "-D__USE_CLANG_OPENCL_C_H", "-Dinline=",
                   "-Dcl_khr_int64", "-DCL_DEVICE_MAX_GLOBAL_VARIABLE_SIZE=" + std::to_string(most_variables)};
    for (const char *header : {"_builtin_renames.h", "opencl-c-base.h", "opencl-c.h", "_clang_opencl.h"})
        words.insert(words.end(), {"-include", headers + header});
    // each access of the text is one of the code: no pass has merged or moved any
    words.insert(words.end(), {"-fno-builtin", "-fno-discard-value-names", "-g", "-w", "-emit-llvm", "-c", "-O1",
                               "-Xclang", "-disable-llvm-passes"});
    return words;
}

// The state of a file that a build depends on.
std::string state_of(const std::string &path) {
    std::error_code error;
    const auto time = files::last_write_time(path, error).time_since_epoch().count();
    const auto size = error ? 0 : files::file_size(path, error);
    return path + (error ? " missing" : " " + std::to_string(time) + " " + std::to_string(size));
}

// pocl's own types, but for one that clang has itself in OpenCL C 2.0.
std::string types_header() {
    return "#if __OPENCL_C_VERSION__ == 200\n#define reserve_id_t pocl_reserve_id_t\n#endif\n#include \"" +
           settings().builtins + "/include/pocl_types.h\"\n#undef reserve_id_t\n";
}

// The program that the instrumenting pass described in this file; false where it can't be read.
bool read_sites(const std::string &path, Program &program) {
    std::ifstream in(path);
    Kernel *kernel = nullptr;
    for (std::string line; std::getline(in, line);) {
        std::istringstream words(line);
        std::string word;
        uint32_t number;
        words >> word;
        if (word == "kernel") {
            Kernel made;
            words >> made.name >> made.has_names >> made.has_copies;
            kernel = &(program.kernels[made.name] = made);
        } else if (word == "argument" && kernel) {
            char kind;
            words >> number >> kind;
            kernel->kinds += kind;
        } else if (word == "entry" && kernel) {
            Entry entry;
            words >> number >> entry.argument >> entry.space >> entry.bytes >> entry.grain >> entry.has_atomics;
            std::getline(words >> entry.name, entry.type);
            program.has_variables = program.has_variables || (entry.argument < 0 && entry.space == GLOBAL);
            kernel->entries.push_back(entry);
        } else if (word == "site") {
            Site site;
            words >> number >> site.kind >> site.space >> site.bytes >> site.entry >> std::ws;
            std::getline(words, site.place);
            program.sites.push_back(site);
        } else if (word == "note") {
            program.notes.push_back(line.substr(5));
        } else {
            return false;
        }
        if (!words) return false;
    }
    return in.eof() && kernel;
}

class Build {
public:
    Build(const std::vector<Unit> &units, cl_device_id device)
        : units_(units), options_(compiler_options(device)), features_(features_of(device)) {
        std::ostringstream text;
        for (const Unit &unit : units) {
            text << unit.source << '\1' << unit.options << '\1';
            for (const Source &header : unit.headers) text << header.name << '\1' << header.text << '\1';
        }
        for (const std::string &word : options_) text << word << '\1';
        std::error_code ignored;
        text << files::current_path(ignored); // where included files are looked for
        for (const std::string &file : {own_path().string(), instrumenter(), builtins()}) text << state_of(file);
        const std::hash<std::string> hash;
        char name[34];
        std::snprintf(name, sizeof name, "/%016zx%016zx", hash(text.str()), hash("second " + text.str()));
        if (!settings().kept_builds.empty()) kept_ = settings().kept_builds + name;
    }

    std::shared_ptr<Program> program(std::string &error) {
        if (is_kept()) {
            if (auto program = load(kept_)) return program;
        }
        std::string folder = files::temp_directory_path().string() + "/gpurace-build-XXXXXX";
        if (!mkdtemp(folder.data())) return error = "there is no room for its code", nullptr;
        file_ = folder + "/kernel";
        std::shared_ptr<Program> program;
        if (compile(folder)) {
            keep();
            program = load(file_);
        }
        if (!program) error = failure();
        if (!settings().keeps_code) files::remove_all(folder);
        return program;
    }

private:
    const std::vector<Unit> &units_;
    Words options_, features_;
    std::string kept_, file_;

    static std::string name_of(size_t unit) {
        return unit == 0 ? "kernel.cl" : "kernel-" + std::to_string(unit + 1) + ".cl";
    }

    bool compile(const std::string &folder) {
        const std::string log = file_ + ".log", march = std::string("-march=") + processor().name;
        const std::string linked = file_ + ".out.bc", code = file_ + ".o", library = file_ + ".so";
        Words instrument = {instrumenter(), builtins(), linked, file_ + ".sites"};
        for (size_t at = 0; at < units_.size(); at++) {
            instrument.push_back(folder + "/unit" + std::to_string(at) + ".bc");
            if (!compile_unit(folder, at, instrument.back(), log)) return false;
        }
        return run(instrument, log) &&
               run({settings().clang, "-O2", "-w", march, "-fPIC", "-fstack-usage", "-c", linked, "-o", code}, log) &&
               run({"ld", "-shared", code, own_path(), "-lm", "-o", library}, log) && files::exists(library);
    }

    bool compile_unit(const std::string &folder, size_t at, const std::string &out, const std::string &log) {
        const std::string text = folder + "/" + name_of(at), headers = folder + "/headers" + std::to_string(at);
        std::ofstream(text, std::ios::binary) << units_[at].source;
        for (const Source &header : units_[at].headers) {
            const files::path path = headers + "/" + header.name;
            files::create_directories(path.parent_path());
            std::ofstream(path, std::ios::binary) << header.text;
        }
        std::ofstream(folder + "/types.h") << types_header();
        Words words = {settings().clang, "-include", folder + "/types.h"};
        words.insert(words.end(), options_.begin(), options_.end());
        const Words own = unit_options(units_[at], features_);
        words.insert(words.end(), own.begin(), own.end());
        words.insert(words.end(), {"-fdebug-prefix-map=" + folder + "/=", "-I", headers, "-I", ".", "-MD", "-MF", out + ".d", text, "-o", out});
        return run(words, log);
    }

    // What a kept build depends on: the files that its texts include, pocl's apart.
    std::string included() const {
        const std::string folder = files::path(file_).parent_path().string() + "/";
        std::string lines;
        for (size_t at = 0; at < units_.size(); at++) {
            std::ifstream in(folder + "unit" + std::to_string(at) + ".bc.d");
            for (std::string word; in >> word;) {
                const bool is_ours = starts(word, folder) || starts(word, settings().builtins);
                if (word != "\\" && word.back() != ':' && !is_ours) lines += state_of(word) + "\n";
            }
        }
        return lines;
    }
    bool is_kept() const {
        std::ifstream in(kept_ + ".needs");
        if (kept_.empty() || !in) return false;
        for (std::string line; std::getline(in, line);)
            if (state_of(line.substr(0, line.find(' '))) != line) return false;
        return true;
    }
    // `.needs` comes last, so that a build without it is not whole.
    void keep() const {
        if (kept_.empty()) return;
        std::error_code error;
        files::create_directories(settings().kept_builds, error);
        const std::string own = "." + std::to_string(getpid());
        std::ofstream(file_ + ".needs") << included();
        for (const char *end : {".so", ".sites", ".su", ".needs"}) {
            files::copy_file(file_ + end, kept_ + end + own, files::copy_options::overwrite_existing, error);
            if (!error) files::rename(kept_ + end + own, kept_ + end, error);
            if (error) return files::remove(kept_ + end + own, error), void();
        }
    }

    std::shared_ptr<Program> load(const std::string &file) const {
        auto made = std::make_shared<Program>();
        if (!read_sites(file + ".sites", *made)) return nullptr;
        for (size_t at = 0; at < units_.size(); at++) made->sources.push_back({name_of(at), units_[at].source});
        made->frame_bytes = frame_bytes(file + ".su");
        void *code = open_code(file + ".so", made->has_variables);
        if (!code) return nullptr;
        for (auto &[name, kernel] : made->kernels) {
            kernel.run = reinterpret_cast<void (*)(void *, void **)>(dlsym(code, ("gr_run_" + name).c_str()));
            if (!kernel.run) return nullptr;
            for (Entry &entry : kernel.entries)
                if (entry.argument < 0 && entry.space == GLOBAL)
                    entry.address = reinterpret_cast<uint64_t>(dlsym(code, entry.name.c_str()));
        }
        return made;
    }
    // The loader takes one file for one library: a program with variables of its own needs a copy.
    static void *open_code(const std::string &path, bool is_copied) {
        if (!is_copied) return dlopen(path.c_str(), RTLD_NOW | RTLD_LOCAL);
        std::string copy = files::temp_directory_path().string() + "/gpurace-code-XXXXXX";
        const int file = mkstemp(copy.data());
        if (file < 0) return nullptr;
        close(file);
        std::error_code error;
        files::copy_file(path, copy, files::copy_options::overwrite_existing, error);
        void *code = error ? nullptr : dlopen(copy.c_str(), RTLD_NOW | RTLD_LOCAL);
        files::remove(copy, error);
        return code;
    }
    // Calls do not recur in OpenCL C, so no stack has more than all frames together.
    static uint64_t frame_bytes(const std::string &path) {
        std::ifstream in(path);
        uint64_t sum = 0;
        for (std::string line; std::getline(in, line);) {
            const size_t tab = line.find('\t');
            if (tab != std::string::npos) sum += std::strtoull(line.c_str() + tab + 1, nullptr, 10) + 16;
        }
        return sum;
    }

    std::string failure() const {
        std::ifstream in(file_ + ".log");
        for (std::string line; std::getline(in, line);)
            if (line.find("error") != std::string::npos || line.find(": ") != std::string::npos) return line;
        const char *text = dlerror();
        return std::string("its instrumented code could not be loaded: ") + (text ? text : "it is not whole");
    }
};

} // namespace

std::shared_ptr<Program> build(const std::vector<Unit> &units, cl_device_id device, std::string &error) {
    try {
        return Build(units, device).program(error);
    } catch (const std::exception &fault) { // of files
        return error = fault.what(), nullptr;
    }
}

} // namespace gpurace
