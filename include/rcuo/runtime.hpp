/*
 * rcuo/runtime.hpp: the managed runtime (rcuo/runtime.h) for C++11 and later.
 *
 *     rcuo::runtime runtime;                  once; it stops where it is destroyed, after all callbacks have run
 *     rcuo::registration here(runtime);       in each thread that reads, as long as this lives
 *     rcuo::read_section reading;             as long as this lives:  config *now = current.load();
 *     rcuo::quiescent_state();                between read sections, often; or rcuo::offline waits;  before it blocks
 *     rcuo::retire(old);                      in any thread: `delete old` after a grace period
 *     rcuo::call([=] { .. });                 the same for any callable
 *
 * What a program owes stands in rcuo/runtime.h. A call that is refused throws an rcuo::error, which has the answer, or ends the
 * program where there are no exceptions. So does a callable that throws, by std::terminate. Where a thread uses several runtimes,
 * those calls that name none mean the one that its last registration or rcuo_use chose.
 */
#ifndef RCUO_RUNTIME_HPP
#define RCUO_RUNTIME_HPP

#include <atomic>
#include <exception>
#include <memory>
#include <new>
#include <rcuo/runtime.h>
#include <type_traits>
#include <utility>

namespace rcuo {

/* A call that did nothing, with its answer. */
class error : public std::exception {
public:
    explicit error(rcuo_answer answer) noexcept : answer_(answer) {}
    rcuo_answer answer() const noexcept { return answer_; }
    const char *what() const noexcept override { return rcuo_strerror(answer_); }

private:
    rcuo_answer answer_;
};

namespace detail {

inline void check(rcuo_answer answer) {
    if (answer == RCUO_OK) return;
#ifdef __EXCEPTIONS
    throw error(answer);
#else
    std::terminate();
#endif
}

/* A callable with a head, on the heap. */
struct callback : rcuo_head {
    callback() : rcuo_head() {}
    callback(const callback &) = delete;
    callback &operator=(const callback &) = delete;
    virtual ~callback() {}
    virtual void run() = 0;
};

template <typename Function> struct callback_of final : callback {
    explicit callback_of(Function &&from) : function(std::move(from)) {}
    explicit callback_of(const Function &from) : function(from) {}
    void run() override { function(); }
    Function function;
};

/* A callable that owns an object, and destroys it where it is called, or destroyed uncalled. */
template <typename Object, typename Deleter> struct destroys {
    explicit destroys(std::unique_ptr<Object, Deleter> &&from) : object(std::move(from)) {}
    void operator()() { object.reset(); }
    std::unique_ptr<Object, Deleter> object;
};

/* What the helper calls. The callable may let its own place go only after it ran. */
inline void run_callback(rcuo_head *head) noexcept {
    std::unique_ptr<callback> entered(static_cast<callback *>(head));
    entered->run();
}

/* Room for a callable that destroys an object: it is had before anything owns that. */
template <typename Object, typename Deleter> void *room_to_retire() {
    return ::operator new(sizeof(callback_of<destroys<Object, Deleter>>));
}

template <typename Object, typename Deleter> void retire_in(void *room, std::unique_ptr<Object, Deleter> &&object) noexcept {
    using retires = callback_of<destroys<Object, Deleter>>;
    rcuo_call_rcu(new (room) retires(destroys<Object, Deleter>(std::move(object))), run_callback);
}

/* Destroys the callables of a list that came back, without calling them. Heads of C are the program's. */
inline void destroy_all(rcuo_head *head) noexcept {
    while (head) {
        rcuo_head *next = head->next;
        if (head->function == run_callback) delete static_cast<callback *>(head);
        head = next;
    }
}

} // namespace detail

/* A runtime with its helper thread. Registrations end before it is stopped or destroyed. */
class runtime {
public:
    explicit runtime(const rcuo_options *options = nullptr) : started_(nullptr) { detail::check(rcuo_start(&started_, options)); }
    runtime(runtime &&other) noexcept : started_(other.started_) { other.started_ = nullptr; }
    runtime(const runtime &) = delete;
    runtime &operator=(const runtime &) = delete;

    /* As `stop`. A thread that is registered still, or a callback that destroys its own runtime, ends the program. */
    ~runtime() {
        if (!started_) return;
        rcuo_answer answer = try_stop();
        while (answer == RCUO_MEMORY) answer = try_stop();
        if (started_) std::terminate();
    }

    /* Waits until all callbacks have run. Callables that callbacks called for more rounds than rcuo_stop waits for are destroyed
     * uncalled. Throws where it is refused: RCUO_FULL, RCUO_RUNNING, RCUO_MEMORY. */
    void stop() { detail::check(try_stop()); }

    rcuo_runtime *get() const noexcept { return started_; }

private:
    rcuo_answer try_stop() noexcept {
        rcuo_head *back = nullptr;
        rcuo_answer answer = rcuo_stop(started_, &back);
        if (answer != RCUO_OK && answer != RCUO_CLOSED) return answer;
        started_ = nullptr;
        detail::destroy_all(back);
        return RCUO_OK;
    }

    rcuo_runtime *started_;
};

/* While it lives this thread is registered, with the runtime that is named, or the one that it uses. It stays with its thread. */
class registration {
public:
    registration() : with_(nullptr) { detail::check(rcuo_register()); }
    explicit registration(const runtime &with) : with_(with.get()) {
        rcuo_use(with_);
        detail::check(rcuo_register());
    }
    registration(const registration &) = delete;
    registration &operator=(const registration &) = delete;
    ~registration() {
        if (with_) rcuo_use(with_);
        rcuo_unregister();
    }

private:
    rcuo_runtime *with_;
};

/* While it lives this thread reads. Sections may nest. */
class read_section {
public:
    read_section() noexcept { rcuo_thread_read_lock(); }
    read_section(const read_section &) = delete;
    read_section &operator=(const read_section &) = delete;
    ~read_section() { rcuo_thread_read_unlock(); }
};

/* While it lives nobody waits for this thread, which reads nothing. */
class offline {
public:
    offline() { detail::check(rcuo_thread_offline()); }
    offline(const offline &) = delete;
    offline &operator=(const offline &) = delete;
    ~offline() { rcuo_thread_online(); }
};

/* No read section of this thread is open. */
inline void quiescent_state() { detail::check(rcuo_quiescent_state()); }

/* Waits for a grace period; and until all callbacks have run that any thread called before. */
inline void synchronize() { detail::check(rcuo_synchronize()); }
inline void barrier() { detail::check(rcuo_runtime_barrier()); }

/* Calls a callable after a grace period, in the helper: a copy of it, or what it was moved into, on the heap. By any thread, within
 * read sections and callbacks too. Throws what the copy and `new` throw, and else is never refused. */
template <typename Function> void call(Function &&function) {
    using callback = detail::callback_of<typename std::decay<Function>::type>;
    rcuo_call_rcu(new callback(std::forward<Function>(function)), detail::run_callback);
}

/* Destroys an object after a grace period. Where `new` throws, it is the caller's still: readers may see it. */
template <typename Object, typename Deleter> void retire(std::unique_ptr<Object, Deleter> &&object) {
    void *room = detail::room_to_retire<Object, Deleter>();
    detail::retire_in(room, std::move(object));
}

template <typename Object> void retire(Object *object) {
    void *room = detail::room_to_retire<Object, std::default_delete<Object>>();
    detail::retire_in(room, std::unique_ptr<Object>(object));
}

/* What a pointer leads to was published by `publish`, `rcuo::atomic_ptr`, or a release store. */
template <typename Object> Object *dereference(const std::atomic<Object *> &from) noexcept {
    return from.load(std::memory_order_acquire);
}

template <typename Object> void publish(std::atomic<Object *> &at, Object *object) noexcept {
    at.store(object, std::memory_order_release);
}

/* A pointer that readers load, and that writers replace. It doesn't own. */
template <typename Object> class atomic_ptr {
public:
    constexpr atomic_ptr() noexcept : pointer_(nullptr) {}
    constexpr explicit atomic_ptr(Object *object) noexcept : pointer_(object) {}
    atomic_ptr(const atomic_ptr &) = delete;
    atomic_ptr &operator=(const atomic_ptr &) = delete;

    Object *load() const noexcept { return dereference(pointer_); }
    void store(Object *object) noexcept { publish(pointer_, object); }
    Object *exchange(Object *object) noexcept { return pointer_.exchange(object, std::memory_order_acq_rel); }
    bool compare_exchange(Object *&expected, Object *object) noexcept {
        return pointer_.compare_exchange_strong(expected, object, std::memory_order_acq_rel, std::memory_order_acquire);
    }

private:
    std::atomic<Object *> pointer_;
};

} // namespace rcuo

#endif
