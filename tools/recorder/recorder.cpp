// The plugin: Oclgrind reports to it what the work-items of each launch do. It keeps that as records (launch.h), and at the launch's
// end writes them as a folder of streams (write_launch.cpp). Oclgrind runs each group to its end on one of its threads. It reports an
// access before it is done, so that a thread holds the words of an atomic meanwhile: else another might come between.
#include "calls.h"
#include "components.h"
#include "launch.h"
#include "places.h"
#include "types.h"

#include "oclgrind/Context.h"
#include "oclgrind/Kernel.h"
#include "oclgrind/KernelInvocation.h"
#include "oclgrind/Memory.h"
#include "oclgrind/Plugin.h"
#include "oclgrind/Program.h"
#include "oclgrind/WorkGroup.h"
#include "oclgrind/WorkItem.h"

#include "llvm/IR/Function.h"
#include "llvm/IR/InstIterator.h"
#include "llvm/IR/Instructions.h"
#include "llvm/Passes/PassBuilder.h"
#include "llvm/Passes/PassPlugin.h"
#include "llvm/Transforms/Scalar/GVN.h"
#include "llvm/Transforms/Utils/BasicBlockUtils.h"
#include "llvm/Transforms/Utils/Mem2Reg.h"

#include <memory>
#include <optional>
#include <stack>

namespace {

using namespace gpurace;
using namespace oclgrind;

// An operation of opencl20_atomics.h that an item is in: the kind, order and scope that its arguments name.
struct Explicit {
    const WorkItem *item;
    uint8_t kind, order, failure_order, scope;
};

// What a thread is at. Oclgrind makes new ones for each launch.
struct Running {
    const WorkGroup *work_group = nullptr;
    Group *group = nullptr;
    Record *changed = nullptr; // the record of the atomic that is under way
    Explicit given{};          // an item does nothing else meanwhile
    std::unordered_map<const void *, Call> calls;
    Held held;
};
thread_local Running running;

Size size_of(const Size3 &size) { return {size.x, size.y, size.z}; }

class Recorder : public Plugin {
public:
    explicit Recorder(const Context *context) : Plugin(context) {}
    ~Recorder() override { finish(); }

    // Writes what was recorded of the launch, if one is under way.
    void finish() {
        if (!launch_) return;
        launch_->number_places();
        for (const auto &[at, call] : launch_->reached.all()) {
            const std::string callers = call == Places::NO_CALL ? "" : CALLED + launch_->places[call];
            launch_->places.push_back(text_of(static_cast<const llvm::Instruction *>(at)) + callers);
        }
        Places sites;
        for (auto &[place, site] : launch_->sites) {
            const auto &[at, call] = launch_->reached.all()[place];
            const void *location = static_cast<const llvm::Instruction *>(at)->getDebugLoc().get();
            site = 1 + sites.number_of({location ? location : at, call});
        }
        write_launch(*launch_, settings_, "");
        launch_.reset();
    }

    bool isThreadSafe() const override { return true; }

    void kernelBegin(const KernelInvocation *invocation) override {
        finish();
        const uint32_t number = launches_++;
        const Kernel *kernel = kernel_ = invocation->getKernel();
        const bool is_wanted = (settings_.kernel.empty() || settings_.kernel == kernel->getName()) &&
                               (settings_.launch == UINT64_MAX || settings_.launch == number);
        if (!is_wanted) return;
        launch_ = std::make_unique<Launch>();
        launch_->number = number;
        launch_->kernel = kernel->getName();
        launch_->source = kernel->getProgram()->getSource();
        launch_->global = size_of(invocation->getGlobalSize());
        launch_->local = size_of(invocation->getLocalSize());
        launch_->groups = size_of(invocation->getNumGroups());
        launch_->window = settings_.groups.within(launch_->groups.count());
        launch_->has_atomics = has_atomics(*kernel->getFunction()->getParent());
        const std::string refusal = launch_->refusal();
        if (refusal.empty()) {
            note_types(*kernel->getFunction());
            return name_global_buffers(kernel);
        }
        write_launch(*launch_, settings_, refusal);
        launch_.reset();
    }
    void kernelEnd(const KernelInvocation *) override { finish(); }

    void workGroupBegin(const WorkGroup *work_group) override {
        if (!launch_) return;
        const Size3 id = work_group->getGroupID();
        const auto number = uint32_t(launch_->groups.index_of(id.x, id.y, id.z));
        const std::lock_guard<std::mutex> lock(launch_->mutex);
        Group &group = launch_->group[number];
        group.number = number;
        group.items = uint32_t(size_of(work_group->getGroupSize()).count());
        group.is_kept = launch_->is_in_window(number);
        if (group.is_kept) group.releases.assign(group.items, 0);
        name_local_buffers(work_group);
        running.work_group = work_group;
        running.group = &group;
    }
    void workGroupComplete(const WorkGroup *work_group) override {
        if (!launch_) return;
        Group &group = group_of(work_group);
        group.is_complete = true;
        running.work_group = nullptr;
        const std::lock_guard<std::mutex> lock(launch_->mutex);
        launch_->join(group);
        group.places.close();
        if (!group.is_kept && group.outside.empty()) launch_->group.erase(group.number);
    }
    // The item that does the asynchronous copies passes every barrier of its group. A wait is a barrier that names no memory: all items must
    // come to it, but it orders none of them with another. What it ends is handed over by releases of that item, which the others acquire.
    void workGroupBarrier(const WorkGroup *work_group, uint32_t) override {
        if (!launch_) return;
        running.held.release(); // of the copies
        Group &group = group_of(work_group);
        if (!group.has_barrier) return;
        Record record = group.last_barrier;
        record.item = uint16_t(group.items);
        group.keep(record);
        if (group.has_copied) hand_over_copies(group);
        group.has_copied = false;
        group.waiting.clear();
    }

    void instructionExecuted(const WorkItem *item, const llvm::Instruction *instruction, const TypedValue &) override {
        const unsigned opcode = instruction->getOpcode(); // nothing else changes memory
        if (launch_ && (opcode == llvm::Instruction::Call || opcode == llvm::Instruction::Store)) changed_memory(item, instruction);
    }

    void memoryLoad(const Memory *memory, const WorkItem *item, size_t address, size_t size) override {
        if (!reads_constant(item->getCurrentInstruction())) access(memory, item, GPURACE_READ, address, size);
    }
    void memoryStore(const Memory *memory, const WorkItem *item, size_t address, size_t size, const uint8_t *) override {
        access(memory, item, GPURACE_WRITE, address, size);
    }
    void memoryLoad(const Memory *memory, const WorkGroup *group, size_t address, size_t size) override {
        copy(memory, group, GPURACE_READ, address, size);
    }
    void memoryStore(const Memory *memory, const WorkGroup *group, size_t address, size_t size, const uint8_t *) override {
        copy(memory, group, GPURACE_WRITE, address, size);
    }
    // An atomic is reported as a load, and then as a store if it modifies.
    void memoryAtomicLoad(const Memory *memory, const WorkItem *item, AtomicOp, size_t address, size_t size) override {
        running.changed = is_traced(memory, size) ? atomic_load(memory, item, address, size) : nullptr;
    }
    void memoryAtomicStore(const Memory *, const WorkItem *item, AtomicOp, size_t, size_t) override {
        if (running.changed) atomic_change(item, *running.changed);
        running.changed = nullptr;
    }

private:
    static uint32_t launches_; // of the process: a program may have several contexts
    const Settings settings_;
    std::unique_ptr<Launch> launch_;
    const Kernel *kernel_ = nullptr;

    // Whether the program has an atomic that may be called, or be in what is.
    static bool has_atomics(const llvm::Module &module) {
        return std::any_of(module.begin(), module.end(), [](const llvm::Function &function) { return function.getName().contains("atom"); });
    }
    // Whether what is loaded is constant memory, which has no race: by a load, or a call as of vload.
    static bool reads_constant(const llvm::Instruction *at) {
        const auto is_constant = [](const llvm::Value *value) {
            return value->getType()->isPointerTy() && value->getType()->getPointerAddressSpace() == AddrSpaceConstant;
        };
        if (const auto *load = llvm::dyn_cast<llvm::LoadInst>(at)) return is_constant(load->getPointerOperand());
        const auto *call = llvm::dyn_cast<llvm::CallInst>(at);
        return call && std::any_of(call->arg_begin(), call->arg_end(), is_constant);
    }

    // The types of the elements of what the kernel may access: its arguments, and the variables that it has.
    void note_types(const llvm::Function &kernel) {
        const auto note = [this](llvm::StringRef name, const std::string &type) {
            if (!type.empty()) launch_->types[name.substr(name.rfind('.') + 1).str()] = type;
        };
        for (const llvm::GlobalVariable &variable : kernel.getParent()->globals())
            if (variable.getName().startswith(kernel.getName().str() + ".")) note(variable.getName(), types::of_variable(variable));
        const llvm::DISubprogram *described = kernel.getSubprogram();
        for (const llvm::Argument &argument : kernel.args())
            if (argument.getType()->isPointerTy()) note(argument.getName(), types::of_argument(described, argument.getArgNo()));
    }
    void name_global_buffers(const Kernel *kernel) {
        const Memory *memory = m_context->getGlobalMemory();
        for (auto value = kernel->values_begin(); value != kernel->values_end(); ++value) {
            const llvm::Type *type = value->first->getType();
            const bool is_global = type->isPointerTy() && (type->getPointerAddressSpace() == AddrSpaceGlobal ||
                                                           type->getPointerAddressSpace() == AddrSpaceConstant);
            if (!is_global || !value->second.data || value->second.size != sizeof(size_t)) continue;
            const auto number = uint32_t(memory->extractBuffer(value->second.getPointer()));
            std::string &name = launch_->buffers[GPURACE_GLOBAL][number].name;
            name += (name.empty() ? "" : "=") + value->first->getName().str();
        }
    }
    void name_local_buffers(const WorkGroup *work_group) {
        const Memory *memory = work_group->getLocalMemory();
        for (auto value = kernel_->values_begin(); value != kernel_->values_end(); ++value) {
            const llvm::Type *type = value->first->getType();
            if (!type->isPointerTy() || type->getPointerAddressSpace() != AddrSpaceLocal) continue;
            const size_t address = work_group->getLocalMemoryAddress(value->first);
            const llvm::StringRef name = value->first->getName();
            launch_->buffers[GPURACE_LOCAL][uint32_t(memory->extractBuffer(address))].name = name.substr(name.rfind('.') + 1).str();
        }
    }

    Group &group_of(const WorkGroup *work_group) {
        if (running.work_group != work_group) {
            const Size3 id = work_group->getGroupID(); // getGroupIndex() is wrong in 21.10 from two dimensions on
            const std::lock_guard<std::mutex> lock(launch_->mutex);
            running.work_group = work_group;
            running.group = &launch_->group.at(uint32_t(launch_->groups.index_of(id.x, id.y, id.z)));
        }
        return *running.group;
    }
    static uint16_t item_of(const WorkItem *item) {
        const Size3 id = item->getLocalID();
        return uint16_t(size_of(item->getWorkGroup()->getGroupSize()).index_of(id.x, id.y, id.z));
    }
    static Call kind_of(const llvm::CallInst *call) {
        auto [entry, is_new] = running.calls.try_emplace(call, Call::other);
        if (is_new && call->getCalledFunction()) entry->second = call_of(call->getCalledFunction()->getName());
        return entry->second;
    }
    static uint32_t place_of(Group &group, const WorkItem *item) {
        return group.places.number_of({item->getCurrentInstruction(), caller_of(group, item)});
    }
    // The place of the call that an item is in.
    static uint32_t caller_of(Group &group, const WorkItem *item) {
        using Calls = std::stack<const llvm::Instruction *>;
        struct Open : Calls {
            static const container_type &of(const Calls &calls) { return calls.*&Open::c; }
        };
        uint32_t place = Places::NO_CALL;
        for (const llvm::Instruction *call : Open::of(item->getCallStack())) place = group.places.number_of({call, place});
        return place;
    }
    static std::string text_of(const llvm::Instruction *instruction) {
        if (!instruction) return "unknown";
        const std::string text = gpurace::text_of(instruction->getDebugLoc().get());
        return text.empty() ? "function " + instruction->getFunction()->getName().str() : text;
    }

    // Whether it is an access of global or local memory.
    bool is_traced(const Memory *memory, size_t size) const {
        return launch_ && size > 0 && memory->getAddressSpace() != AddrSpacePrivate;
    }
    static uint64_t word_of(const Record &record) { return uint64_t(record.buffer) << 40 | record.offset; }
    // The sequences that an atomic's word is of; global memory's are held.
    static Sequences &sequences_of(Group &group, const Record &record) {
        return record.space == GPURACE_LOCAL ? group.sequences : *running.held.sequences.front();
    }
    // The record of an access, or nothing where that is out of bounds.
    std::optional<Record> record_of(const Memory *memory, Group &group, uint32_t place, uint16_t item, uint8_t kind, size_t address, size_t size) {
        const uint8_t space = memory->getAddressSpace() == AddrSpaceLocal ? GPURACE_LOCAL : GPURACE_GLOBAL;
        const auto number = uint32_t(memory->extractBuffer(address));
        const uint64_t offset = memory->extractOffset(address), bits = offset | size;
        const Record record = {offset, number, place, uint32_t(size), -1, item, kind, space, 0, 0};
        if (!memory->isAddressValid(address, size)) {
            Outside &outside = group.outside[place];
            if (outside.count++ == 0) outside = {1, kind, size, group.number, item, where(memory, space, address)};
            return std::nullopt;
        }
        Buffer &buffer = group.buffers[space][number];
        buffer.bytes = memory->getBuffer(address)->size;
        buffer.bits |= bits;
        if (bits % 4 != 0) launch_->losses.accesses_of_parts_of_words++;
        return record;
    }
    // Where an address is that is in no buffer. One before a buffer's start names the buffer before that.
    std::string where(const Memory *memory, uint8_t space, size_t address) {
        const size_t most = memory->extractOffset(SIZE_MAX), offset = memory->extractOffset(address);
        const size_t before = offset > most / 2 ? most + 1 - offset : 0, start = before > 0 ? address + before : address - offset;
        const auto *buffer = memory->getBuffer(start);
        if (!buffer) return "in no buffer";
        const auto number = uint32_t(memory->extractBuffer(start));
        const std::lock_guard<std::mutex> lock(launch_->mutex);
        return outside_text(launch_->buffers[space][number].name_or(number), buffer->size, offset, before);
    }

    // It may have. (A function of its own: the check before it is done for every instruction, and this seldom.)
    [[gnu::noinline]] void changed_memory(const WorkItem *item, const llvm::Instruction *instruction) {
        running.held.release();
        const auto *call = llvm::dyn_cast<llvm::CallInst>(instruction);
        const Call kind = call ? kind_of(call) : Call::other;
        if (item->getState() == WorkItem::BARRIER)
            barrier(item, call, kind);
        else if (kind == Call::copy)
            begin_copy(item, call);
        else if (kind == Call::fence)
            launch_->losses.fences++;
        else if (kind >= Call::explicit_load)
            running.given = explicit_of(item, call, kind);
        else if (kind == Call::atomic)
            running.given.item = nullptr; // the builtin within the operation is done
    }

    void access(const Memory *memory, const WorkItem *item, uint8_t kind, size_t address, size_t size) {
        if (!is_traced(memory, size)) return;
        Group &group = group_of(item->getWorkGroup());
        if (const auto record = record_of(memory, group, place_of(group, item), item_of(item), kind, address, size)) keep(group, *record);
    }
    void begin_copy(const WorkItem *item, const llvm::CallInst *call) {
        Group &group = group_of(item->getWorkGroup());
        const auto operand = [&](unsigned at) { return item->getOperand(call->getArgOperand(at)); };
        if (group.copies.begins(item_of(item), group.items))
            group.copies.add(operand(1).getPointer(), operand(2).getUInt(), place_of(group, item));
    }
    void copy(const Memory *memory, const WorkGroup *work_group, uint8_t kind, size_t address, size_t size) {
        if (!is_traced(memory, size)) return;
        Group &group = group_of(work_group);
        uint32_t place = group.copies.place_at(kind, address);
        if (place == Copies::NONE) place = group.places.number_of({work_group->getCurrentBarrier(), Places::NO_CALL});
        const auto record = record_of(memory, group, place, uint16_t(group.items), kind, address, size);
        if (!record) return;
        group.has_copies = group.has_copied = true;
        keep(group, *record);
    }
    // Of both memories, each by a word of its own.
    void hand_over_copies(Group &group) {
        const auto copier = uint16_t(group.items);
        for (const gpurace_space space : {GPURACE_GLOBAL, GPURACE_LOCAL}) {
            const uint8_t scope = space == GPURACE_LOCAL ? GPURACE_GROUP : GPURACE_DEVICE;
            Buffer &buffer = group.buffers[space][WAITS];
            buffer.bytes = buffer.bits = 4;
            Record record{0, WAITS, group.last_barrier.place, 4, -1, copier, GPURACE_STORE, uint8_t(space), scope, GPURACE_RELEASE};
            group.keep(record);
            if (group.is_kept) group.names.push_back({{group.number, copier, scope, group.copier_releases++}});
            record.names = int32_t(group.names.size()) - 1;
            record.kind = GPURACE_LOAD;
            record.order = GPURACE_ACQUIRE;
            for (const uint16_t item : group.waiting) {
                record.item = item;
                group.keep(record);
            }
        }
    }
    void keep(Group &group, const Record &record) {
        if (record.kind == GPURACE_WRITE && record.space == GPURACE_LOCAL) group.sequences.write(word_of(record), record.size);
        if (record.kind == GPURACE_WRITE && record.space == GPURACE_GLOBAL && launch_->has_atomics) {
            running.held.take(launch_->stripes, word_of(record), record.size);
            for (Sequences *sequences : running.held.sequences) sequences->write(word_of(record), record.size);
        }
        group.keep(record);
    }

    void barrier(const WorkItem *item, const llvm::CallInst *call, Call kind) {
        uint32_t flags = kind == Call::wait ? GPURACE_NO_FENCE : GPURACE_GLOBAL_FENCE | GPURACE_LOCAL_FENCE;
        if (kind == Call::barrier && call->arg_size() > 0) {
            const uint64_t given = item->getOperand(call->getArgOperand(0)).getUInt();
            flags = (given & CLK_GLOBAL_MEM_FENCE ? GPURACE_GLOBAL_FENCE : GPURACE_NO_FENCE) |
                    (given & CLK_LOCAL_MEM_FENCE ? GPURACE_LOCAL_FENCE : GPURACE_NO_FENCE);
        }
        Group &group = group_of(item->getWorkGroup());
        group.last_barrier = {0, 0, place_of(group, item), flags, -1, item_of(item), GPURACE_BARRIER, 0, 0, 0};
        group.has_barrier = true;
        group.barriers.insert(group.last_barrier.place);
        if (kind == Call::wait) {
            group.waits.insert(group.last_barrier.place);
            group.waiting.push_back(item_of(item));
        }
        group.keep(group.last_barrier);
    }

    // memory_order_relaxed is 0, acquire 2, release 3, acq_rel 4, seq_cst 5. No store acquires, and no load releases.
    uint8_t order_of(const WorkItem *item, const llvm::Value *value, uint8_t kind) {
        const uint64_t order = llvm::isa<llvm::UndefValue>(value) ? UINT64_MAX : item->getOperand(value).getUInt();
        if (order > 5 || (kind == GPURACE_STORE && order == 2) || (kind == GPURACE_LOAD && order == 3)) {
            launch_->losses.unknown_orders++;
            return GPURACE_RELAXED;
        }
        switch (order) {
        case 0: return GPURACE_RELAXED;
        case 1:
        case 2: return GPURACE_ACQUIRE;
        case 3: return GPURACE_RELEASE;
        default: return kind == GPURACE_LOAD ? GPURACE_ACQUIRE : kind == GPURACE_STORE ? GPURACE_RELEASE : GPURACE_BOTH;
        }
    }
    // The order and the scope are the last two arguments; a compare-exchange has the order of failing between them.
    Explicit explicit_of(const WorkItem *item, const llvm::CallInst *call, Call call_kind) {
        const unsigned count = call->arg_size();
        const uint8_t kind = call_kind == Call::explicit_load    ? GPURACE_LOAD
                             : call_kind == Call::explicit_store ? GPURACE_STORE
                                                                 : GPURACE_RMW;
        const bool can_fail = call_kind == Call::explicit_exchange;
        const uint8_t order = order_of(item, call->getArgOperand(count - (can_fail ? 3 : 2)), kind);
        const uint8_t failure = can_fail ? order_of(item, call->getArgOperand(count - 2), GPURACE_LOAD) : order;
        return {item, kind, order, failure, scope_of(item->getOperand(call->getArgOperand(count - 1)).getUInt())};
    }
    // memory_scope_work_item is 0, work_group 1, device 2, all_svm_devices 3, sub_group 4. A trace has none that is narrower than a work-group.
    uint8_t scope_of(uint64_t scope) {
        const bool is_narrow = scope == 0 || scope == 4;
        launch_->losses.narrow_scopes += is_narrow;
        return is_narrow || scope == 1 ? GPURACE_GROUP : GPURACE_DEVICE;
    }

    // Records an atomic as the load that it is unless a store follows; null where it is out of bounds. The atomics of OpenCL 1.2
    // are relaxed, of device scope on global memory and of group scope on local memory.
    Record *atomic_load(const Memory *memory, const WorkItem *item, size_t address, size_t size) {
        Group &group = group_of(item->getWorkGroup());
        launch_->losses.has_atomics = true;
        const bool is_explicit = running.given.item == item;
        const bool is_inside = is_explicit && !item->getCallStack().empty();
        const uint32_t place = is_inside ? caller_of(group, item) : place_of(group, item);
        const auto made = record_of(memory, group, place, item_of(item), GPURACE_LOAD, address, size);
        if (!made) return nullptr;
        Record record = *made;
        if (record.space == GPURACE_GLOBAL) running.held.take(launch_->stripes, word_of(record), size);
        const uint8_t failure = is_explicit ? running.given.failure_order : uint8_t(GPURACE_RELAXED);
        const bool acquires = failure == GPURACE_ACQUIRE || failure == GPURACE_BOTH;
        record.order = acquires ? GPURACE_ACQUIRE : GPURACE_RELAXED;
        record.scope = is_explicit ? running.given.scope : uint8_t(GPURACE_DEVICE);
        if (record.space == GPURACE_LOCAL) record.scope = GPURACE_GROUP;
        if (acquires) name(group, record);
        return &group.keep(record);
    }
    // The atomic has modified its word.
    void atomic_change(const WorkItem *item, Record &record) {
        Group &group = group_of(item->getWorkGroup());
        const bool is_explicit = running.given.item == item;
        if (is_explicit && running.given.kind == GPURACE_LOAD) return; // the load of opencl20_atomics.h adds 0
        const bool is_named = record.acquires();
        record.kind = is_explicit ? running.given.kind : uint8_t(GPURACE_RMW);
        record.order = is_explicit ? running.given.order : uint8_t(GPURACE_RELAXED);
        if (!record.acquires()) record.names = -1;
        if (record.acquires() && !is_named) name(group, record);
        const uint32_t release = record.releases() && group.is_kept ? group.releases[record.item]++ : 0;
        const Name own{group.number, record.item, record.scope, release};
        sequences_of(group, record).modify(word_of(record), record, own, group.is_kept);
    }
    // Gives an acquire the names of the releases from which its value comes.
    void name(Group &group, Record &record) {
        if (!group.is_kept) return;
        Names heads = sequences_of(group, record).heads(word_of(record));
        const auto is_outside = [&](const Name &head) { return !launch_->is_in_window(head.group); };
        const auto kept = std::remove_if(heads.begin(), heads.end(), is_outside);
        launch_->losses.names_outside_window += uint64_t(heads.end() - kept);
        heads.erase(kept, heads.end());
        if (heads.empty()) return;
        record.names = int32_t(group.names.size());
        group.names.push_back(std::move(heads));
    }
};

uint32_t Recorder::launches_ = 0;

// Of each context of the program. They are not destroyed with the library: a program may release its contexts later.
auto &recorders = *new std::map<const Context *, std::unique_ptr<Recorder>>;

// A launch that was stopped is under way still where the program ends without releasing its context.
struct AtEnd {
    ~AtEnd() {
        for (const auto &[context, recorder] : recorders) recorder->finish();
    }
} at_end;

} // namespace

extern "C" void initializePlugins(Context *context) {
    auto &recorder = recorders[context] = std::make_unique<Recorder>(context);
    context->registerPlugin(recorder.get());
}

extern "C" void releasePlugins(Context *context) {
    const auto found = recorders.find(context);
    if (found == recorders.end()) return;
    context->unregisterPlugin(found->second.get());
    recorders.erase(found);
}

namespace {

// Makes an address in an array of arrays one instruction: Oclgrind interprets and checks each that there is.
void join_addresses(llvm::Function &function) {
    using Address = llvm::GetElementPtrInst;
    for (llvm::Instruction &it : llvm::make_early_inc_range(llvm::instructions(function))) {
        auto *element = llvm::dyn_cast<Address>(&it);
        auto *array = element ? llvm::dyn_cast<Address>(element->getPointerOperand()) : nullptr;
        const auto *first = array ? llvm::dyn_cast<llvm::ConstantInt>(element->getOperand(1)) : nullptr;
        if (!first || !first->isZero()) continue;
        llvm::SmallVector<llvm::Value *> indices(array->indices());
        indices.append(element->idx_begin() + 1, element->idx_end());
        llvm::ReplaceInstWithInst(element, Address::Create(array->getSourceElementType(), array->getPointerOperand(), indices));
        if (array->use_empty()) array->eraseFromParent();
    }
}

struct NarrowVectors : llvm::PassInfoMixin<NarrowVectors> {
    llvm::PreservedAnalyses run(llvm::Function &function, llvm::FunctionAnalysisManager &) {
        components::narrow(function);
        join_addresses(function);
        return llvm::PreservedAnalyses::none();
    }
};

} // namespace

// The plugin is one of Clang, too: it has values of an item's own kept out of private memory and calculated once, so that Oclgrind has half as
// much to interpret, addresses calculated at once, and vectors accessed by component. All else is as -O0 has it.
extern "C" llvm::PassPluginLibraryInfo llvmGetPassPluginInfo() {
    return {LLVM_PLUGIN_API_VERSION, "gpurace", "1", [](llvm::PassBuilder &builder) {
                builder.registerPipelineStartEPCallback([](llvm::ModulePassManager &passes, llvm::OptimizationLevel) {
                    llvm::FunctionPassManager of_function;
                    of_function.addPass(llvm::PromotePass());
                    of_function.addPass(NarrowVectors());
                    of_function.addPass(llvm::GVNPass(llvm::GVNOptions().setPRE(false).setLoadPRE(false).setMemDep(false)));
                    passes.addPass(llvm::createModuleToFunctionPassAdaptor(std::move(of_function)));
                });
            }};
}
