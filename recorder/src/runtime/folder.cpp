#include "launch.h"

#include <cerrno>
#include <cstring>
#include <filesystem>
#include <fstream>
#include <sstream>

namespace gpurace {
namespace {

bool write_file(const std::string &path, const std::string &text) {
    std::ofstream out(path, std::ios::binary);
    return out.write(text.data(), std::streamsize(text.size())).flush().good();
}

// The lines of info.txt that are known from the start.
std::string shape_of(const Request &request) {
    const Range &range = request.range;
    std::string text = shape_lines(request.kernel->name, request.number, range.global, range.local, range.groups, request.label);
    if (request.window.count() < range.group_count()) text += request.window.lines();
    for (uint64_t group = 0; request.kernel->has_copies && group < request.window.count(); group++)
        text += "copying-item " + std::to_string(group) + ' ' + std::to_string(range.items_of_group()) + '\n';
    for (const Entry &entry : request.kernel->entries)
        if (entry.type.size() > 1) text += "element " + entry.name + entry.type + '\n';
    for (size_t site = 0; site < request.program->sites.size(); site++)
        if (request.program->sites[site].kind == WAIT) text += "wait " + std::to_string(site) + '\n';
    return text;
}

std::string buffers_of(const Launch &launch) {
    std::string text;
    const auto add = [&](const std::string &memory, const std::vector<Span> &spans) {
        for (const Span &span : spans) text += buffer_line(memory, span.first_word, span.words(), span.name, span.grain);
        if (launch.request.kernel->has_copies) text += buffer_line(memory, word_of_waits(spans), 1, "wait_group_events", 4);
    };
    add("g", launch.spans);
    const std::vector<Entry> &entries = launch.request.entries;
    const std::vector<Span> locals = spans_of(entries, lay_out_locals(entries, 1 << 12).addresses, LOCAL);
    for (uint64_t group = 0; group < launch.request.window.count(); group++) add("l " + std::to_string(group), locals);
    return text;
}

// Each place with something that is not judged, and how often.
void write_losses(std::ostream &out, Launch &launch) {
    const std::lock_guard<std::mutex> held(launch.losses.lock);
    for (size_t site = 0; site < launch.losses.of_site.size(); site++) {
        const uint64_t count = launch.losses.of_site[site], narrow = launch.losses.narrow[site];
        const Site &at = launch.sites[site];
        if (narrow > 0) out << "narrow-scope " << narrow << ' ' << at.place << '\n';
        if (count == 0) continue;
        if (at.kind == FENCE || at.kind == IMAGE) {
            out << (at.kind == FENCE ? "fence " : "image ") << count << ' ' << at.place << '\n';
        } else {
            Outside &outside = launch.losses.outside[uint32_t(site)];
            outside.count = count;
            out << outside.line(at.place);
        }
    }
    out << "names-outside-window " << launch.losses.names_outside << "\nrepeated-not-recorded "
        << launch.losses.repeated << "\nacquire-loads-added " << launch.losses.added << "\natomics "
        << (launch.losses.has_atomics ? "yes\n" : "no\n");
}

} // namespace

bool begin_folder(Launch &launch, std::string &error) {
    const Request &request = launch.request;
    const std::string folder = request.folder + "/";
    std::string places;
    for (const Site &site : request.program->sites) places += site.place + "\n";
    std::error_code fault;
    bool is_written = std::filesystem::create_directories(request.folder, fault) && write_file(folder + "begun.txt", shape_of(request)) &&
                      write_file(folder + "buffers", buffers_of(launch)) && write_file(folder + "sites", places);
    for (const Source &source : request.program->sources)
        is_written = is_written && write_file(folder + source.name, source.text);
    if (!is_written) error = request.folder + " could not be written: " + std::strerror(errno);
    return is_written;
}

void end_folder(Launch &launch, double seconds) {
    const Request &request = launch.request;
    const std::string folder = request.folder + "/", part = folder + "info.part";
    const uint64_t items = request.range.items_of_group() + request.kernel->has_copies, kept = request.window.count();
    std::ostringstream info;
    info << shape_of(request) << "items " << kept * items << "\nrecords " << launch.records << '\n';
    for (uint64_t group = 0; group < kept; group++)
        if (launch.is_cut[group]) info << "cut " << group << '\n';
    if (launch.counted > launch.most_records) info << "most-records " << launch.most_records << '\n';
    for (const std::string &note : request.program->notes) info << "note " << note << '\n';
    write_losses(info, launch);
    std::string equal = launch.stored.lines("g");
    for (const std::string &lines : launch.stored_in_locals) equal += lines;
    if (!equal.empty()) write_file(folder + "equal", equal);
    info << "kernel-seconds " << seconds << '\n';
    if (write_file(part, info.str()) && std::rename(part.c_str(), (folder + "info.txt").c_str()) == 0)
        std::remove((folder + "begun.txt").c_str());
}

} // namespace gpurace
