// Instruments a kernel: its accesses, atomics and barriers call the runtime. The lines that say what the numbers of
// sites mean are written meanwhile, in this order for each kernel:
//   kernel NAME NAMES COPIES ARGUMENTS      NAMES: it has atomics that may acquire; COPIES: it has asynchronous copies
//   site NUMBER KIND SPACE BYTES ENTRY PLACE   ENTRY: what it accesses, or -1 where that is not known
//   argument NUMBER KIND                    B buffer, C constant buffer, L local memory, I image, S sampler, V value
//   entry NUMBER ARGUMENT SPACE BYTES GRAIN ATOMIC NAME TYPE   a buffer that is an argument, or a variable (ARGUMENT
//                                           is -1); TYPE: of its elements (tools/recorder/types.h), if it is known
//   note TEXT                               what is not recorded
#include "instrument.h"

#include "../../../tools/recorder/components.h"
#include "../../../tools/recorder/places.h"
#include "../../../tools/recorder/types.h"

#include "llvm/IR/IRBuilder.h"
#include "llvm/IR/InstIterator.h"
#include "llvm/IR/ReplaceConstant.h"

using namespace llvm;

namespace gpurace {
namespace {

using Builder = IRBuilder<>;

constexpr unsigned MOST_STORED = 128; // bytes of the greatest vector

// A pointer as one to bytes of private memory, which is how the runtime knows each address.
Value *plain(Builder &builder, Value *pointer) {
    const unsigned space = pointer->getType()->getPointerAddressSpace();
    Value *bytes = builder.CreateBitCast(pointer, builder.getInt8PtrTy(space));
    return space ? builder.CreateAddrSpaceCast(bytes, builder.getInt8PtrTy()) : bytes;
}
Value *as(Builder &builder, Value *bytes, Type *type) {
    const unsigned space = type->getPointerAddressSpace();
    return builder.CreateBitCast(space ? builder.CreateAddrSpaceCast(bytes, builder.getInt8PtrTy(space)) : bytes, type);
}

Value *wide(Builder &builder, Value *number) { return builder.CreateZExtOrTrunc(number, builder.getInt64Ty()); }

// A value in the 64 bits that a call of the runtime has for it, and back.
Type *bits_type(Builder &builder, Type *type) { return builder.getIntNTy(unsigned(type->getPrimitiveSizeInBits())); }
Value *bits_of(Builder &builder, Value *value) {
    Type *type = value->getType();
    return wide(builder, type->isFloatingPointTy() ? builder.CreateBitCast(value, bits_type(builder, type)) : value);
}
Value *value_of(Builder &builder, Value *bits, Type *type) {
    return builder.CreateBitCast(builder.CreateZExtOrTrunc(bits, bits_type(builder, type)), type);
}

// What a store writes, where the code has it as a value.
Value *stored_of(const Access &access) {
    if (auto *store = dyn_cast<StoreInst>(access.instruction)) return store->getValueOperand();
    auto *call = dyn_cast<CallInst>(access.instruction); // of vstore, but for those of half
    return call && access.kind == WRITE && access.index_operand == 1 && !name_of(*call).contains("half")
               ? call->getArgOperand(0) : nullptr;
}

char kind_of(const Argument &argument) {
    auto *pointer = dyn_cast<PointerType>(argument.getType());
    if (!pointer || argument.hasByValAttr()) return 'V';
    auto *object = dyn_cast<StructType>(pointer->getNonOpaquePointerElementType());
    const StringRef name = object && object->hasName() ? object->getName() : "";
    if (name.startswith("opencl.image")) return 'I';
    if (name.startswith("opencl.sampler")) return 'S';
    return pointer->getAddressSpace() == LOCAL_SPACE ? 'L' : pointer->getAddressSpace() == CONSTANT_SPACE ? 'C' : 'B';
}

bool is_used_in(const Function &function, const User &user) {
    if (auto *instruction = dyn_cast<Instruction>(&user)) return instruction->getFunction() == &function;
    return any_of(user.users(), [&](const User *further) { return is_used_in(function, *further); });
}

// Has a function use another value in the place of a variable.
void replace_in(Function &function, GlobalVariable *variable, Value *other) {
    const SmallVector<User *> users(variable->users());
    for (User *user : users)
        if (auto *expression = dyn_cast<ConstantExpr>(user))
            for (Instruction &at : instructions(function)) convertConstantExprsToInstructions(&at, expression);
    variable->replaceUsesWithIf(other, [&](const Use &use) { return is_used_in(function, *use.getUser()); });
}

class Rewriter {
public:
    Rewriter(Function &kernel, raw_ostream &sites, unsigned &next_site)
        : module_(*kernel.getParent()), layout_(module_.getDataLayout()), context_(module_.getContext()),
          bytes_(Type::getInt8PtrTy(context_)), kernel_(kernel), sites_(sites), next_site_(next_site), name_(kernel.getName().str()) {}

    void rewrite() {
        begin_function();
        components::narrow(*function_);
        const Accesses accesses = find_accesses(*function_);
        sites_ << "kernel " << name_ << ' ' << accesses.may_acquire() << ' ' << !accesses.copies.empty() << ' '
               << kernel_.arg_size() << '\n';
        write_entries(accesses);
        for (const Access &access : accesses.plain) put_access(access);
        for (const Atomic &atomic : accesses.atomics) put_atomic(atomic);
        for (CallInst *barrier : accesses.barriers) put_barrier(*barrier);
        for (CallInst *copy : accesses.copies) put_copy(copy);
        for (CallInst *fence : accesses.fences) put_count(*fence, FENCE);
        for (CallInst *image : accesses.images) put_count(*image, IMAGE);
        put_numbers();
        put_prints();
        put_samplers();
        place_local_variables();
        end_function();
        for (const std::string &note : accesses.notes) sites_ << "note " << note << '\n';
    }

private:
    Module &module_;
    const DataLayout &layout_;
    LLVMContext &context_;
    PointerType *const bytes_; // to bytes of private memory
    Function &kernel_, *function_ = nullptr;
    raw_ostream &sites_;
    unsigned &next_site_;
    std::string name_;
    Value *item_ = nullptr;
    AllocaInst *stored_ = nullptr; // room for the value of a store
    std::map<const Value *, int> entries_;
    std::vector<GlobalVariable *> variables_; // those that the kernel uses, in local and global memory

    // The kernel becomes void gr_run_NAME(item, arguments), which the host calls. Its code knows its own arguments until all else is done.
    void begin_function() {
        auto *type = FunctionType::get(Type::getVoidTy(context_), {bytes_, bytes_->getPointerTo()}, false);
        function_ = Function::Create(type, GlobalValue::ExternalLinkage, RUN_PREFIX + name_, module_);
        function_->addFnAttrs(AttrBuilder(context_, kernel_.getAttributes().getFnAttrs()));
        function_->getBasicBlockList().splice(function_->begin(), kernel_.getBasicBlockList());
        item_ = function_->getArg(0);
        Type *room = ArrayType::get(Type::getInt8Ty(context_), MOST_STORED + 4); // the runtime reads it by four bytes
        stored_ = new AllocaInst(room, 0, nullptr, Align(16), "", &function_->getEntryBlock().front());
        if (auto *subprogram = kernel_.getSubprogram()) function_->setSubprogram(subprogram);
    }

    void end_function() {
        Builder builder(&*function_->getEntryBlock().getFirstInsertionPt());
        for (Argument &argument : kernel_.args()) {
            Value *place = builder.CreateConstGEP1_32(bytes_, function_->getArg(1), argument.getArgNo());
            Value *given = builder.CreateLoad(bytes_, place);
            if (Type *copied = argument.getParamByValType()) { // each item has its own copy of a struct
                AllocaInst *own = builder.CreateAlloca(copied);
                own->setAlignment(argument.getParamAlign().valueOrOne());
                builder.CreateMemCpy(own, own->getAlign(), given, Align(1), layout_.getTypeAllocSize(copied));
                argument.replaceAllUsesWith(own);
            } else {
                Value *typed = as(builder, given, argument.getType()->getPointerTo());
                argument.replaceAllUsesWith(builder.CreateAlignedLoad(argument.getType(), typed, Align(1)));
            }
        }
        kernel_.eraseFromParent();
    }

    void write_entries(const Accesses &accesses) {
        const Grains grains(accesses, layout_);
        for (Argument &argument : kernel_.args()) {
            const char kind = kind_of(argument);
            sites_ << "argument " << argument.getArgNo() << ' ' << kind << '\n';
            if (kind == 'B' || kind == 'L') write_entry(argument, int(argument.getArgNo()), 0, argument.getName(), accesses, grains);
        }
        for (GlobalVariable &variable : module_.globals()) {
            const auto is_here = [&](const User *user) { return is_used_in(*function_, *user); };
            const bool is_constant = variable.isConstant() && variable.getAddressSpace() == GLOBAL_SPACE;
            if (is_constant || !is_traced(&variable) || !any_of(variable.users(), is_here)) continue;
            variables_.push_back(&variable);
            StringRef name = variable.getName();
            name.consume_front(name_ + ".");
            if (variable.getAddressSpace() == GLOBAL_SPACE) variable.setLinkage(GlobalValue::ExternalLinkage); // the host looks it up
            write_entry(variable, -1, layout_.getTypeAllocSize(variable.getValueType()), name, accesses, grains);
        }
    }

    void write_entry(const Value &object, int argument, uint64_t bytes, StringRef name, const Accesses &accesses, const Grains &grains) {
        name.consume_front("_cl_"); // that pocl's headers give to a name that a builtin has too
        const unsigned space = object.getType()->getPointerAddressSpace();
        const bool has_atomics = any_of(accesses.atomics, [&](const Atomic &atomic) {
            const Value *known = object_of(atomic.pointer);
            const unsigned other = atomic.pointer->getType()->getPointerAddressSpace();
            return known ? known == &object : other == space || other == GENERIC_SPACE;
        });
        const int number = int(entries_.size());
        entries_[&object] = number;
        const auto *variable = dyn_cast<GlobalVariable>(&object);
        const std::string type = variable ? types::of_variable(*variable)
                                          : types::of_argument(function_->getSubprogram(), unsigned(argument));
        sites_ << "entry " << number << ' ' << argument << ' ' << (space == LOCAL_SPACE) << ' ' << bytes << ' ' << grains.of(&object)
               << ' ' << has_atomics << ' ' << (name.empty() ? "unnamed" : name) << ' ' << type << '\n';
    }

    // Local variables are where the item's state says.
    void place_local_variables() {
        Builder builder(&*function_->getEntryBlock().getFirstInsertionPt());
        unsigned next = 0;
        for (GlobalVariable *variable : variables_) {
            if (variable->getAddressSpace() != LOCAL_SPACE) continue;
            Value *place = builder.CreateConstGEP1_32(builder.getInt8Ty(), item_, LOCALS_OFFSET);
            Type *many = bytes_->getPointerTo();
            Value *locals = builder.CreateLoad(many, builder.CreateBitCast(place, many->getPointerTo()));
            Value *memory = builder.CreateLoad(bytes_, builder.CreateConstGEP1_32(bytes_, locals, next++));
            replace_in(*function_, variable, as(builder, memory, variable->getType()));
        }
    }

    unsigned site(const Instruction &at, SiteKind kind, const Value *pointer, uint64_t bytes) {
        const unsigned space = pointer ? pointer->getType()->getPointerAddressSpace() : unsigned(GLOBAL_SPACE);
        const auto entry = pointer && object_of(pointer) ? entries_.find(object_of(pointer)) : entries_.end();
        const std::string place = text_of(at.getDebugLoc().get());
        sites_ << "site " << next_site_ << ' ' << kind << ' '
               << (space == LOCAL_SPACE ? LOCAL : space == GENERIC_SPACE ? GENERIC : GLOBAL) << ' ' << bytes << ' '
               << (entry == entries_.end() ? -1 : entry->second) << ' ' << (place.empty() ? "kernel.cl:0:0" : place) << '\n';
        return next_site_++;
    }

    CallInst *call_runtime(Builder &builder, StringRef name, Type *result, std::vector<Value *> values) {
        values.insert(values.begin(), item_);
        std::vector<Type *> types;
        for (Value *value : values) types.push_back(value->getType());
        return builder.CreateCall(module_.getOrInsertFunction(name, FunctionType::get(result, types, false)), values);
    }

    // Puts what `make` makes in the place of the calls that are wanted.
    void replace_calls(function_ref<bool(StringRef)> is_wanted, function_ref<Value *(Builder &, CallInst &)> make) {
        for (Instruction &instruction : make_early_inc_range(instructions(*function_))) {
            auto *call = dyn_cast<CallInst>(&instruction);
            if (!call || !is_wanted(name_of(*call))) continue;
            Builder builder(call);
            call->replaceAllUsesWith(make(builder, *call));
            call->eraseFromParent();
        }
    }

    // The address to use, which the runtime answers. It sees the value that is stored, where that is known.
    Value *call_access(Builder &builder, unsigned number, Value *address, Value *stored) {
        Value *seen = ConstantPointerNull::get(bytes_);
        if (stored && layout_.getTypeAllocSize(stored->getType()) <= MOST_STORED) {
            seen = builder.CreateBitCast(stored_, bytes_);
            builder.CreateAlignedStore(stored, as(builder, seen, stored->getType()->getPointerTo()), Align(16));
        }
        return call_runtime(builder, "gr_access", bytes_, {builder.getInt32(number), address, seen});
    }

    // The instruction uses the address that the runtime answers.
    void put_access(const Access &access) {
        Builder builder(access.instruction);
        Value *address = plain(builder, access.pointer());
        if (access.index) {
            Value *offset = builder.CreateMul(wide(builder, access.index), builder.getInt64(access.stride));
            address = builder.CreateGEP(builder.getInt8Ty(), address, offset);
            access.instruction->setOperand(access.index_operand, Constant::getNullValue(access.index->getType()));
        }
        const unsigned number = site(*access.instruction, access.kind, access.pointer(), access.bytes);
        Value *allowed = call_access(builder, number, address, stored_of(access));
        access.instruction->setOperand(access.operand, as(builder, allowed, access.pointer()->getType()));
    }

    void put_atomic(const Atomic &atomic) {
        CallInst *at = atomic.call;
        Builder builder(at);
        const StringRef name = name_of(*at);
        Type *word = pointee_of(at->getArgOperand(0));
        if (word->isStructTy()) word = builder.getInt32Ty();
        const unsigned site_number = site(*at, atomic.kind, atomic.pointer, layout_.getTypeStoreSize(word));
        Value *number = builder.getInt32(site_number), *address = plain(builder, atomic.pointer);
        if (atomic.kind == WRITE) { // atomic_init
            Value *value = at->getArgOperand(1), *allowed = call_access(builder, site_number, address, value);
            builder.CreateStore(value, as(builder, allowed, value->getType()->getPointerTo()));
            return at->eraseFromParent(), void();
        }
        const bool is_flag = name.contains("flag"), has_expected = name.contains("compare_exchange");
        Value *value = builder.getInt64(0), *compare = value, *expected = has_expected ? at->getArgOperand(1) : nullptr;
        if (name.contains("inc") || name.contains("dec") || is_flag) value = builder.getInt64(atomic.kind == MODIFY);
        else if (atomic.kind == COMPARE_EXCHANGE) value = bits_of(builder, at->getArgOperand(2));
        else if (atomic.kind != LOAD) value = bits_of(builder, at->getArgOperand(1));
        if (expected) compare = bits_of(builder, builder.CreateLoad(at->getArgOperand(2)->getType(), expected));
        else if (atomic.kind == COMPARE_EXCHANGE) compare = bits_of(builder, at->getArgOperand(1));
        const auto part = [&](Value *given, unsigned otherwise, unsigned shift) {
            Value *part = given ? builder.CreateZExtOrTrunc(given, builder.getInt32Ty()) : builder.getInt32(otherwise);
            return builder.CreateShl(part, shift);
        };
        const unsigned order = atomic.is_of_opencl20 ? 5 : 0; // memory_order_seq_cst; memory_scope_device is 2
        Value *orders = builder.CreateOr(part(atomic.order, order, 0), part(atomic.failure, order, 8));
        Value *how = builder.CreateOr(orders, part(atomic.scope, 2, 16));
        Value *what = builder.getInt32(unsigned(atomic.operation) | unsigned(atomic.type) << 8);
        std::vector<Value *> values = {number, what, address, value, compare, how};
        Value *old = call_runtime(builder, "gr_atomic", builder.getInt64Ty(), values);
        if (expected) {
            builder.CreateStore(value_of(builder, old, at->getArgOperand(2)->getType()), expected);
            at->replaceAllUsesWith(builder.CreateZExtOrTrunc(builder.CreateICmpEQ(old, compare), at->getType()));
        } else if (!at->getType()->isVoidTy()) {
            Value *result = is_flag ? builder.CreateZExtOrTrunc(builder.CreateIsNotNull(old), at->getType())
                                    : value_of(builder, old, at->getType());
            at->replaceAllUsesWith(result);
        }
        at->eraseFromParent();
    }

    // CLK_LOCAL_MEM_FENCE is 1 and CLK_GLOBAL_MEM_FENCE 2; items may give different flags. A wait for copies has its events.
    void put_barrier(CallInst &call) {
        Builder builder(&call);
        const bool is_wait = name_of(call) == "wait_group_events";
        Value *number = builder.getInt32(site(call, is_wait ? WAIT : BARRIER, nullptr, 0));
        if (is_wait) {
            Value *count = builder.CreateZExtOrTrunc(call.getArgOperand(0), builder.getInt32Ty());
            call_runtime(builder, "gr_wait", builder.getVoidTy(), {number, count, plain(builder, call.getArgOperand(1))});
        } else {
            Value *flags = call.arg_size() == 0 ? builder.getInt32(3) : call.getArgOperand(0);
            call_runtime(builder, "gr_barrier", builder.getVoidTy(), {number, builder.CreateZExtOrTrunc(flags, builder.getInt32Ty())});
        }
        call.eraseFromParent();
    }

    void put_copy(CallInst *at) {
        const bool is_strided = name_of(*at).contains("strided");
        Builder builder(at);
        Value *to = at->getArgOperand(0), *from = at->getArgOperand(1);
        const uint64_t bytes = layout_.getTypeStoreSize(pointee_of(to));
        const bool to_local = to->getType()->getPointerAddressSpace() == LOCAL_SPACE;
        Value *one = builder.getInt64(1), *stride = is_strided ? wide(builder, at->getArgOperand(3)) : one;
        const unsigned reads = site(*at, READ, from, bytes), writes = site(*at, WRITE, to, bytes);
        Value *given = builder.CreatePtrToInt(at->getArgOperand(at->arg_size() - 1), builder.getInt64Ty());
        Value *event = call_runtime(builder, "gr_copy", builder.getInt64Ty(),
                                    {builder.getInt32(reads), builder.getInt32(writes), plain(builder, to), plain(builder, from),
                                     wide(builder, at->getArgOperand(2)), to_local ? one : stride, to_local ? stride : one, given});
        at->replaceAllUsesWith(builder.CreateIntToPtr(event, at->getType()));
        at->eraseFromParent();
    }

    // A fence stays one, an image's access is as it was; both are counted.
    void put_count(CallInst &call, SiteKind kind) {
        Builder builder(&call);
        call_runtime(builder, "gr_count", builder.getVoidTy(), {builder.getInt32(site(call, kind, nullptr, 0))});
        if (kind != FENCE) return;
        builder.CreateFence(AtomicOrdering::SequentiallyConsistent);
        call.eraseFromParent();
    }

    // get_local_id(..) and the others are words of the item's state.
    void put_numbers() {
        const auto is_number = [](StringRef name) { return number_row_of(name) >= 0; };
        replace_calls(is_number, [&](Builder &builder, CallInst &call) {
            const StringRef name = name_of(call);
            const LinearNumber of_items = name == "get_local_linear_id" ? LOCAL_LINEAR_ID : GLOBAL_LINEAR_ID;
            Value *column = builder.getInt64(name == "get_work_dim" ? WORK_DIM : of_items);
            if (call.arg_size() == 1) {
                Value *dimension = wide(builder, call.getArgOperand(0)), *last = builder.getInt64(DIMENSIONS - 1);
                column = builder.CreateSelect(builder.CreateICmpULT(dimension, last), dimension, last);
            }
            Value *index = builder.CreateAdd(builder.getInt64(uint64_t(number_row_of(name)) * DIMENSIONS), column);
            Type *type = builder.getInt64Ty();
            Value *place = builder.CreateGEP(type, builder.CreateBitCast(item_, type->getPointerTo()), index);
            return builder.CreateZExtOrTrunc(builder.CreateLoad(type, place), call.getType());
        });
    }

    // A printf is what pocl's own passes make of it: a function that writes into a buffer.
    void put_prints() {
        replace_calls([](StringRef name) { return name == "printf"; }, [&](Builder &builder, CallInst &call) {
            Value *buffer = call_runtime(builder, "gr_print", bytes_, {});
            auto *type = FunctionType::get(builder.getInt32Ty(), {bytes_, bytes_, builder.getInt32Ty(), bytes_}, true);
            Value *text = builder.CreateConstGEP1_32(builder.getInt8Ty(), buffer, 8);
            std::vector<Value *> values = {text, buffer, builder.getInt32(PRINT_ROOM - 8)};
            values.insert(values.end(), call.arg_begin(), call.arg_end());
            values[3] = plain(builder, values[3]);
            Value *result = builder.CreateCall(module_.getOrInsertFunction("__pocl_printf", type), values);
            call_runtime(builder, "gr_printed", builder.getVoidTy(), {});
            return result;
        });
    }

    // A sampler is its CLK_.. bits.
    void put_samplers() {
        replace_calls([](StringRef name) { return name == "__translate_sampler_initializer"; }, [](Builder &builder, CallInst &call) {
                          return builder.CreateIntToPtr(call.getArgOperand(0), call.getType());
                      });
    }
};

} // namespace

void instrument_kernel(Function &kernel, raw_ostream &sites, unsigned &next_site) {
    Rewriter(kernel, sites, next_site).rewrite();
}

} // namespace gpurace
