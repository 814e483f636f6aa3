// Writes a launch as a folder: a stream for each work-group, the side files `sites` and `buffers` (docs/FORMATS.md), the text
// of the kernel, and at last info.txt: a folder without it is not whole.
#include "launch.h"

#include <cerrno>
#include <cstdio>
#include <cstring>
#include <fstream>
#include <future>
#include <iomanip>
#include <sys/stat.h>

namespace gpurace {
namespace {

int write_bytes(void *context, const unsigned char *bytes, size_t length) {
    static_cast<std::string *>(context)->append(reinterpret_cast<const char *>(bytes), length);
    return 1;
}

// The streams of some groups that follow each other, or what there is to say of them if they have files of their own.
struct Part {
    std::string bytes;
    uint64_t records = 0, items = 0, added_loads = 0;
    std::set<uint32_t> cut;
    bool is_good = true;
    int error = 0; // of the system, where it is not
};

class Writer {
public:
    Writer(Launch &launch, const Settings &settings) : launch_(launch), settings_(settings) {}

    // Whether the whole folder was written.
    bool write(const std::string &refusal) {
        if (!make_folder()) return false;
        if (!refusal.empty()) return write_info(refusal);
        lay_out_buffers();
        number_releases();
        if (!write_streams()) return false;
        std::ofstream sites(folder_ + "/sites");
        for (const std::string &place : launch_.places) sites << place << '\n';
        std::ofstream(folder_ + "/kernel.cl") << launch_.source;
        return sites.flush().good() && write_buffers() && write_info("");
    }
    const std::string &folder() const { return folder_; }
    uint64_t records() const { return records_; }

private:
    Launch &launch_;
    const Settings &settings_;
    std::string folder_;
    uint64_t records_ = 0, items_ = 0, added_loads_ = 0;
    std::set<uint32_t> cut_;
    // of each item with releases, the number of the first record of each of its release operations
    std::map<std::pair<uint32_t, uint16_t>, std::vector<uint64_t>> first_record_;

    bool make_folder() {
        if (mkdir(settings_.out.c_str(), 0777) != 0 && errno != EEXIST) return false;
        bool is_made = false;
        folder_ = folder_of(settings_.out, launch_.number, launch_.kernel, [&](const std::string &folder) {
            is_made = mkdir(folder.c_str(), 0777) == 0;
            return !is_made && errno == EEXIST;
        });
        return is_made;
    }

    // The grain of a buffer is the greatest of 4, 2 and 1 at which every access to it is of whole words. Buffers never share a
    // word, and have some words between them.
    void lay_out_buffers() {
        for (auto &of_space : launch_.buffers) {
            uint64_t next = 0;
            for (auto &[number, buffer] : of_space) {
                buffer.grain = buffer.bits & 1 ? 1 : buffer.bits & 2 ? 2 : 4;
                buffer.first = next;
                next = (next + buffer.words() + 127) / 64 * 64;
            }
        }
    }
    const Buffer &buffer_of(const Record &record) const { return launch_.buffers[record.space].at(record.buffer); }
    uint64_t first_word(const Record &record) const {
        const Buffer &buffer = buffer_of(record);
        return buffer.first + record.offset / buffer.grain;
    }
    uint64_t words(const Record &record) const {
        const Buffer &buffer = buffer_of(record);
        return (record.offset + record.size - 1) / buffer.grain - record.offset / buffer.grain + 1;
    }

    // A release of several words is several records.
    void number_releases() {
        const auto has_names = [](const auto &entry) { return !entry.second.names.empty(); };
        if (std::none_of(launch_.group.begin(), launch_.group.end(), has_names)) return;
        for (const auto &[number, group] : launch_.group) {
            std::map<uint16_t, uint64_t> next;
            for (const Record &record : group.records) {
                if (!record.is_access() || !record.releases()) continue;
                first_record_[{number, record.item}].push_back(next[record.item]);
                next[record.item] += words(record);
            }
        }
    }
    // The names of an acquire in the trace's numbers, for its word of this number. A release that a full group has lost is not
    // named.
    std::vector<gpurace_name> names(const Group &group, const Record &record, uint64_t word) const {
        std::vector<gpurace_name> names;
        if (record.names < 0) return names;
        for (const Name &release : group.names[size_t(record.names)]) {
            const auto found = first_record_.find({release.group, uint16_t(release.item)});
            if (found != first_record_.end() && release.number < found->second.size())
                names.push_back({launch_.window.number_of(release.group), release.item, found->second[release.number] + word});
        }
        return names;
    }

    // The version of a group's stream: one whose records have room for several names, where an acquire has several.
    gpurace_version version(const Group &group) const {
        const auto has_several = [&](const Record &it) { return it.names >= 0 && group.names[size_t(it.names)].size() > 1; };
        return std::any_of(group.records.begin(), group.records.end(), has_several) ? GPURACE_VERSION_4 : GPURACE_VERSION_3;
    }

    gpurace_status put(gpurace_stream &stream, const Group &group, const Record &record, uint64_t at) const {
        const auto kind = gpurace_kind(record.kind);
        const auto space = gpurace_space(record.space);
        const auto scope = gpurace_scope(record.scope);
        if (kind == GPURACE_BARRIER) return gpurace_barrier(&stream, record.item, launch_.sites.at(group.launch_places[record.place]), record.size);
        const uint64_t word = first_word(record) + at;
        if (kind < GPURACE_LOAD) return gpurace_plain(&stream, record.item, kind, space, word);
        const auto found = names(group, record, at);
        switch (record.order) {
        case GPURACE_RELEASE: return gpurace_release(&stream, record.item, kind, space, scope, word, nullptr);
        case GPURACE_ACQUIRE:
            return gpurace_acquire(&stream, record.item, kind, space, scope, word, found.data(), found.size());
        case GPURACE_BOTH:
            return gpurace_acquire_release(&stream, record.item, space, scope, word, found.data(), found.size(), nullptr);
        default: return gpurace_atomic(&stream, record.item, kind, space, scope, word);
        }
    }

    // Puts the records of a group. Answers what stopped it, or GPURACE_OK.
    gpurace_status put_records(gpurace_stream &stream, const Group &group, Part &part) const {
        for (const Record &record : group.records) {
            if (record.item == group.items && !group.has_copies) continue;
            // a place without room for its number is left out
            const uint32_t place = group.launch_places[record.place];
            gpurace_at(&stream, place < GPURACE_MOST_SITES ? place + 1 : 0);
            const uint64_t count = record.is_access() ? words(record) : 1;
            for (uint64_t at = 0; at < count; at++) {
                const uint32_t before = stream.records;
                const gpurace_status status = put(stream, group, record, at);
                if (status != GPURACE_OK) return status;
                part.added_loads += stream.records - before - 1;
            }
        }
        return GPURACE_OK;
    }

    // Each group has a file, and where there are many groups all have one. Each processor makes the streams of some.
    bool write_streams() {
        const uint64_t count = launch_.window.count(), most = std::max(1u, std::thread::hardware_concurrency()), parts = std::min(count, most);
        for (uint64_t number = 0; number < count; number++) {
            Group &group = launch_.group[uint32_t(launch_.window.group_of(number))];
            if (group.items == 0) group.items = uint32_t(launch_.local.count()); // it never began: the kernel was stopped
        }
        std::vector<std::future<Part>> made;
        for (uint64_t at = 0; at < parts; at++)
            made.push_back(std::async(std::launch::async, &Writer::make, this, count * at / parts, count * (at + 1) / parts));
        return std::all_of(made.begin(), made.end(), [this](auto &it) { return add(it.get()); });
    }
    Part make(uint64_t first, uint64_t end) {
        Part part;
        for (uint64_t number = first; part.is_good && number < end; number++) {
            std::ostringstream name;
            name << folder_ << "/group" << std::setw(2) << std::setfill('0') << number << ".gpurace";
            part.is_good = make_stream(uint32_t(number), part);
            if (launch_.window.count() > GPURACE_MOST_GROUPS) continue;
            part.is_good = part.is_good && write_file(name.str(), part.bytes);
            part.error = errno;
            part.bytes.clear();
        }
        return part;
    }
    bool add(const Part &part) {
        records_ += part.records;
        items_ += part.items;
        added_loads_ += part.added_loads;
        cut_.insert(part.cut.begin(), part.cut.end());
        if (!part.is_good) errno = part.error;
        return part.is_good && (part.bytes.empty() || write_file(folder_ + "/groups.gpurace", part.bytes));
    }
    static bool write_file(const std::string &name, const std::string &bytes) {
        return std::ofstream(name, std::ios::binary | std::ios::app).write(bytes.data(), std::streamsize(bytes.size())).flush().good();
    }

    bool make_stream(uint32_t number, Part &part) {
        Group &group = launch_.group.at(uint32_t(launch_.window.group_of(number)));
        const uint32_t items = group.streamed_items();
        gpurace_stream stream;
        gpurace_status status = gpurace_stream_open_as(&stream, version(group), write_bytes, &part.bytes, number, items, launch_.number);
        if (status == GPURACE_OK) status = put_records(stream, group, part);
        const bool is_cut = !group.is_complete || group.is_full || status == GPURACE_TOO_MANY_RECORDS;
        if (status == GPURACE_TOO_MANY_RECORDS) status = GPURACE_OK;
        if (status == GPURACE_OK) status = gpurace_stream_close(&stream, is_cut);
        if (status != GPURACE_OK)
            std::fprintf(stderr, "gpurace-recorder: %s: group %u: %s\n", folder_.c_str(), number, gpurace_status_text(status));
        if (is_cut) part.cut.insert(number);
        part.records += stream.records;
        part.items += items;
        group.records.clear();
        return status == GPURACE_OK;
    }

    bool write_buffers() {
        std::ofstream out(folder_ + "/buffers");
        const auto lines = [&](const std::string &memory, gpurace_space space) {
            for (const auto &[number, buffer] : launch_.buffers[space])
                if (buffer.bytes > 0) out << buffer_line(memory, buffer.first, buffer.words(), buffer.name_or(number), buffer.grain);
        };
        lines("g", GPURACE_GLOBAL);
        for (uint64_t group = 0; group < launch_.window.count(); group++) lines("l " + std::to_string(group), GPURACE_LOCAL);
        return out.flush().good();
    }

    bool write_info(const std::string &refusal) {
        std::ofstream out(folder_ + "/info.part");
        out << shape_lines(launch_.kernel, launch_.number, launch_.global.all(), launch_.local.all(), launch_.groups.all(), test_label());
        if (!refusal.empty()) {
            out << "not-recorded " << refusal << '\n';
            return show_info(out);
        }
        if (launch_.window.count() < launch_.groups.count()) out << launch_.window.lines();
        out << "items " << items_ << "\nrecords " << records_ << '\n';
        for (const auto &[name, type] : launch_.types) out << "element " << name << ' ' << type << '\n';
        for (const uint32_t group : cut_) out << "cut " << group << '\n';
        for (const auto &[number, group] : launch_.group)
            if (group.is_kept && group.has_copies)
                out << "copying-item " << launch_.window.number_of(number) << ' ' << group.items << '\n';
        std::set<uint64_t> waits;
        for (const uint32_t place : launch_.waits) waits.insert(launch_.sites.at(place));
        for (const uint64_t site : waits) out << "wait " << site << '\n';
        write_losses(out);
        return show_info(out);
    }
    // It is there as a whole: who judges beside the program looks for it.
    bool show_info(std::ofstream &out) const {
        out.close();
        return out.good() && std::rename((folder_ + "/info.part").c_str(), (folder_ + "/info.txt").c_str()) == 0;
    }
    void write_losses(std::ostream &out) const {
        const Losses &losses = launch_.losses;
        for (const auto &[place, outside] : launch_.outside) out << outside.line(launch_.places[place]);
        out << "fences-not-recorded " << losses.fences << "\norders-not-known " << losses.unknown_orders << "\nnarrow-scope " << losses.narrow_scopes
            << "\nnames-outside-window " << losses.names_outside_window << "\nacquire-loads-added " << added_loads_ << "\naccesses-of-parts-of-words "
            << losses.accesses_of_parts_of_words << "\natomics " << (losses.has_atomics ? "yes" : "no") << '\n';
    }
};

} // namespace

void write_launch(Launch &launch, const Settings &settings, const std::string &refusal) {
    std::string reason = refusal;
    for (const auto &[number, group] : launch.group)
        if (group.is_kept && group.streamed_items() > GPURACE_MOST_WIDE_ITEMS)
            reason = "its asynchronous copies need one more work-item in a group than the " + std::to_string(GPURACE_MOST_WIDE_ITEMS) +
                     " that a trace has room for";
    Writer writer(launch, settings);
    const bool is_written = writer.write(reason);
    const std::string said = !is_written        ? writer.folder() + " could not be written: " + std::strerror(errno)
                             : !reason.empty() ? "not recorded: " + reason
                                               : std::to_string(writer.records()) + " records in " + writer.folder();
    if (!is_written || !settings.quiet)
        std::fprintf(stderr, "gpurace-recorder: launch %u %s: %s\n", launch.number, launch.kernel.c_str(), said.c_str());
}

} // namespace gpurace
