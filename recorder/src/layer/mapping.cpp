#include "layer.h"

namespace gpurace {
namespace {

constexpr cl_map_flags BOTH_WAYS = CL_MAP_READ | CL_MAP_WRITE;

// An in-order queue for each device of each context, that maps what a kernel uses.
cl_command_queue helper_queue(cl_context context, cl_device_id device) {
    static auto &queues = *new std::map<std::pair<cl_context, cl_device_id>, cl_command_queue>;
    static auto &lock = *new std::mutex;
    const std::lock_guard<std::mutex> held(lock);
    cl_command_queue &queue = queues[{context, device}];
    cl_int error = CL_SUCCESS;
    if (!queue) queue = driver.clCreateCommandQueue(context, device, 0, &error);
    return queue;
}

int channels_of(cl_channel_order order) {
    switch (order) {
    case CL_R: case CL_A: case CL_Rx: case CL_INTENSITY: case CL_LUMINANCE: case CL_DEPTH: return 1;
    case CL_RG: case CL_RA: case CL_RGx: return 2;
    case CL_RGB: case CL_RGBx: return 3;
    default: return 4;
    }
}

int32_t image_size(cl_mem image, cl_image_info what) {
    return int32_t(info_of<size_t>(driver.clGetImageInfo, image, what));
}

// The arguments of a launch as the host's memory: buffers and images are mapped while it runs.
class Mapping {
public:
    Mapping(cl_context context, cl_device_id device) : queue_(helper_queue(context, device)) {}

    ~Mapping() { // unmaps all
        for (const auto &[memory, pointer] : mapped_)
            driver.clEnqueueUnmapMemObject(queue_, memory, pointer, 0, nullptr, nullptr);
        if (queue_) driver.clFinish(queue_);
    }

    bool place_arguments(const Launchable &launched, Request &request, std::string &reason) {
        request.entries = launched.kernel->entries;
        for (uint32_t at = 0; at < launched.kernel->kinds.size(); at++) {
            const char kind = launched.kernel->kinds[at];
            const bool is_pointer = launched.pointers.count(at) > 0;
            std::vector<char> value = launched.values.at(at);
            Entry *entry = nullptr;
            for (Entry &each : request.entries)
                if (each.argument == int(at)) entry = &each;
            size_t bytes = 0;
            if (kind == 'L') bytes = launched.local_bytes.count(at) ? launched.local_bytes.at(at) : 0;
            else if (kind == 'I') place_image(value);
            else if (kind == 'S') place_sampler(value);
            else if (kind != 'V') bytes = is_pointer ? place_pointer(value, entry) : place_buffer(value);
            if (entry) entry->bytes = bytes;
            if (entry && kind == 'B' && !is_pointer) entry->address = value_of<uint64_t>(value);
            request.arguments.push_back(std::move(value));
        }
        add_shared(launched, request);
        reason = reason_;
        return reason_.empty();
    }

private:
    struct Image { // as pocl's builtins know one (dev_image_t)
        void *data;
        int32_t width, height, depth, array_size, row_pitch, slice_pitch, mip_levels, samples;
        int32_t order, type, channels, channel_bytes;
    };
    cl_command_queue queue_ = nullptr;
    std::map<cl_mem, void *> mapped_;
    std::map<cl_mem, std::unique_ptr<Image>> images_;
    std::string reason_;

    size_t place_buffer(std::vector<char> &value) {
        const auto buffer = value.size() == sizeof(cl_mem) ? value_of<cl_mem>(value) : nullptr;
        set_value(value, static_cast<void *>(nullptr));
        if (!buffer) return 0;
        const auto bytes = info_of<size_t>(driver.clGetMemObjectInfo, buffer, CL_MEM_SIZE);
        cl_int error = queue_ ? CL_SUCCESS : CL_INVALID_COMMAND_QUEUE;
        void *&memory = mapped_[buffer];
        if (queue_ && !memory)
            memory = driver.clEnqueueMapBuffer(queue_, buffer, 1, BOTH_WAYS, 0, bytes, 0, nullptr, nullptr, &error);
        if (error != CL_SUCCESS) {
            mapped_.erase(buffer);
            reason_ = "a buffer could not be mapped (OpenCL's error " + std::to_string(error) + ")";
            return 0;
        }
        set_value(value, memory);
        return bytes;
    }

    // All that the pointer's allocation has.
    size_t place_pointer(std::vector<char> &value, Entry *entry) {
        const auto [start, bytes] = shared_at(value_of<char *>(value));
        if (entry) entry->address = reinterpret_cast<uint64_t>(start ? start : value_of<char *>(value));
        return bytes;
    }

    // Shared memory that a kernel reaches through pointers in memory.
    void add_shared(const Launchable &launched, Request &request) {
        for (char *pointer : launched.more_pointers) {
            const auto [start, bytes] = shared_at(pointer);
            if (!start) continue;
            Entry entry;
            entry.bytes = bytes;
            entry.has_atomics = true;
            entry.name = "svm" + std::to_string(request.entries.size());
            entry.address = reinterpret_cast<uint64_t>(start);
            for (const Entry &known : launched.kernel->entries) entry.grain = std::min(entry.grain, known.grain);
            request.entries.push_back(entry);
        }
    }

    void *map_image(cl_mem image, Image &made) {
        const auto type = info_of<cl_mem_object_type>(driver.clGetMemObjectInfo, image, CL_MEM_TYPE);
        const size_t width = size_t(made.width), array = size_t(made.array_size), one = 1, origin[3] = {0, 0, 0};
        const size_t height = std::max(size_t(made.height), one), depth = std::max({size_t(made.depth), array, one});
        const bool is_line = type == CL_MEM_OBJECT_IMAGE1D_ARRAY;
        const size_t region[3] = {width, is_line ? array : height, is_line ? one : depth};
        size_t row = 0, slice = 0;
        cl_int error = CL_SUCCESS;
        void *memory = driver.clEnqueueMapImage(queue_, image, CL_TRUE, BOTH_WAYS, origin, region, &row, &slice, 0,
                                                nullptr, nullptr, &error);
        made.row_pitch = int32_t(row), made.slice_pitch = int32_t(slice);
        if (error == CL_SUCCESS) return memory;
        reason_ = "an image could not be mapped (OpenCL's error " + std::to_string(error) + ")";
        return nullptr;
    }

    void place_image(std::vector<char> &value) {
        const auto image = value_of<cl_mem>(value);
        std::unique_ptr<Image> &made = images_[image];
        if (made) return set_value(value, static_cast<const void *>(made.get())); // it is two arguments
        const bool is_of_buffer = info_of<cl_mem>(driver.clGetMemObjectInfo, image, CL_MEM_ASSOCIATED_MEMOBJECT);
        const auto type = info_of<cl_mem_object_type>(driver.clGetMemObjectInfo, image, CL_MEM_TYPE);
        // the kernel's accesses of the buffer would be recorded, and its reads of the image would not
        if (is_of_buffer && type != CL_MEM_OBJECT_IMAGE1D_BUFFER) reason_ = "an image in a buffer's memory is not recorded";
        const auto format = info_of<cl_image_format>(driver.clGetImageInfo, image, CL_IMAGE_FORMAT);
        const int32_t channels = channels_of(format.image_channel_order);
        made.reset(new Image{nullptr, image_size(image, CL_IMAGE_WIDTH), image_size(image, CL_IMAGE_HEIGHT),
                             image_size(image, CL_IMAGE_DEPTH), image_size(image, CL_IMAGE_ARRAY_SIZE), 0, 0, 0, 0,
                             int32_t(format.image_channel_order), int32_t(format.image_channel_data_type), channels,
                             image_size(image, CL_IMAGE_ELEMENT_SIZE) / channels});
        void *memory = map_image(image, *made);
        if (memory) mapped_[image] = memory;
        made->data = memory;
        set_value(value, static_cast<const void *>(made.get()));
    }

    // The CLK_.. bits of the builtins.
    void place_sampler(std::vector<char> &value) {
        const auto sampler = value_of<cl_sampler>(value);
        const bool is_normal = info_of<cl_bool>(driver.clGetSamplerInfo, sampler, CL_SAMPLER_NORMALIZED_COORDS);
        const auto mode = info_of<cl_addressing_mode>(driver.clGetSamplerInfo, sampler, CL_SAMPLER_ADDRESSING_MODE);
        const auto filter = info_of<cl_filter_mode>(driver.clGetSamplerInfo, sampler, CL_SAMPLER_FILTER_MODE);
        const uint64_t filtering = filter == CL_FILTER_LINEAR ? 0x20 : 0x10;
        set_value(value, uint64_t(is_normal ? 1 : 0) | (mode - CL_ADDRESS_NONE) * 2 | filtering);
    }
};

} // namespace

std::shared_ptr<void> map_arguments(cl_context context, cl_device_id device, const Launchable &launched,
                                    Request &request, std::string &reason) {
    auto mapping = std::make_shared<Mapping>(context, device);
    return mapping->place_arguments(launched, request, reason) ? mapping : nullptr;
}

} // namespace gpurace
