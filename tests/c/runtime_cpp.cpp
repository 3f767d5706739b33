/*
 * The header for C++: runtimes, registrations, sections, callables and pointers, and that each callable is destroyed once.
 */
#include <array>
#include <chrono>
#include <cstdio>
#include <cstdlib>
#include <functional>
#include <new>
#include <rcuo/runtime.hpp>
#include <string>
#include <thread>
#include <vector>

namespace {

/* Whether this thread's next allocation is refused. */
thread_local bool refuses;

} // namespace

/* (where one of them is inlined alone, gcc takes the other for another allocator's) */
#define NOT_INLINED __attribute__((noinline))
NOT_INLINED void *operator new(std::size_t size) {
    void *const place = refuses ? nullptr : std::malloc(size);
    refuses = false;
    if (!place) throw std::bad_alloc();
    return place;
}
NOT_INLINED void operator delete(void *place) noexcept { std::free(place); }
NOT_INLINED void operator delete(void *place, std::size_t) noexcept { std::free(place); }

namespace {

void expect(bool holds, const char *what, int line) {
    if (holds) return;
    std::fprintf(stderr, "line %d: %s doesn't hold\n", line, what);
    std::abort();
}
#define EXPECT(...) expect((__VA_ARGS__), #__VA_ARGS__, __LINE__)

template <typename Call> rcuo_answer refusal_of(Call &&refused) {
    try {
        refused();
    } catch (const rcuo::error &error) {
        EXPECT(std::string(error.what()) == rcuo_strerror(error.answer()));
        return error.answer();
    }
    return RCUO_OK;
}

/* Whether a call throws where its first allocation is refused. */
template <typename Call> bool is_refused(Call &&call) {
    refuses = true;
    try {
        call();
    } catch (const std::bad_alloc &) {
        return true;
    }
    refuses = false;
    return false;
}

/* How many of these live. */
struct counted {
    counted() { live++; }
    counted(const counted &) { live++; }
    counted(counted &&) noexcept { live++; }
    counted &operator=(const counted &) = default;
    ~counted() { live--; }
    static std::atomic<int> live;
};
std::atomic<int> counted::live;

void test_runtimes() {
    EXPECT(refusal_of([] { rcuo::synchronize(); }) == RCUO_NO_PROCESSOR);
    EXPECT(refusal_of([] { rcuo::registration here; }) == RCUO_NO_PROCESSOR);
    rcuo_options options = rcuo_options();
    options.threads = RCUO_THREADS + 1;
    EXPECT(refusal_of([&] { rcuo::runtime refused(&options); }) == RCUO_SHAPE);
    rcuo::runtime first;
    EXPECT(first.get() != nullptr);
    rcuo::runtime moved(std::move(first));
    EXPECT(moved.get() != nullptr);
    {
        rcuo::registration here;
        EXPECT(refusal_of([&] { moved.stop(); }) == RCUO_FULL);
        EXPECT(refusal_of([] { rcuo::registration again; }) == RCUO_FULL);
    }
    moved.stop();
    EXPECT(moved.get() == nullptr);
}

void test_threads() {
    rcuo::runtime runtime;
    EXPECT(refusal_of([] { rcuo::quiescent_state(); }) == RCUO_NO_PROCESSOR);
    EXPECT(refusal_of([] { rcuo::offline waits; }) == RCUO_NO_PROCESSOR);
    rcuo::registration here;
    EXPECT(rcuo_thread_is_online());
    {
        rcuo::offline waits;
        EXPECT(!rcuo_thread_is_online());
        EXPECT(refusal_of([] { rcuo::quiescent_state(); }) == RCUO_AWAY);
    }
    EXPECT(rcuo_thread_is_online());
    {
        rcuo::read_section outer, inner;
        EXPECT(refusal_of([] { rcuo::quiescent_state(); }) == RCUO_READING);
        EXPECT(refusal_of([] { rcuo::synchronize(); }) == RCUO_READING);
        EXPECT(refusal_of([] { rcuo::barrier(); }) == RCUO_READING);
        EXPECT(refusal_of([] { rcuo::offline waits; }) == RCUO_READING);
    }
    rcuo::quiescent_state();
    rcuo::synchronize();
}

int plain_calls;
void call_plain() { plain_calls++; }

struct moved_only {
    explicit moved_only(int &counter) : counter_(&counter), owned_(new int(1)) {}
    void operator()() { *counter_ += *owned_; }
    int *counter_;
    std::unique_ptr<int> owned_;
};

void test_calls() {
    rcuo::runtime runtime;
    std::vector<int> order;
    int moved = 0;
    counted share;
    for (int n = 0; n < 100; n++) {
        rcuo::call([&order, n, share] {
            (void)share;
            order.push_back(n);
        });
    }
    rcuo::call(call_plain);
    rcuo::call(moved_only(moved));
    std::function<void()> kept = [&moved] { moved++; };
    rcuo::call(kept);
    rcuo::call([&order, share] {
        EXPECT(refusal_of([] { rcuo::barrier(); }) == RCUO_RUNNING);
        rcuo::call([&order, share] {
            (void)share;
            order.push_back(100);
        });
    });
    rcuo::barrier();
    EXPECT(plain_calls == 1 && moved == 2);
    runtime.stop();
    EXPECT(order.size() == 101);
    for (int n = 0; n <= 100; n++) EXPECT(order[static_cast<std::size_t>(n)] == n);
    EXPECT(counted::live == 1);
}

/* Calls itself again and again. */
struct endless {
    void operator()() { rcuo::call(*this); }
    counted share;
};

void test_what_comes_back() {
    {
        rcuo::runtime runtime;
        rcuo::call(endless());
    }
    EXPECT(counted::live == 0);
}

struct array_deleter {
    void operator()(const counted *array) const { delete[] array; }
};

void test_retired() {
    rcuo::runtime runtime;
    rcuo::retire(new counted);
    rcuo::retire(std::unique_ptr<const counted>(new counted));
    rcuo::retire(std::unique_ptr<const counted, array_deleter>(new counted[3]));
    rcuo::barrier();
    EXPECT(counted::live == 0);
}

void test_refused_memory() {
    rcuo::runtime runtime;
    counted *const object = new counted;
    std::unique_ptr<counted> owned(new counted);
    EXPECT(is_refused([&] { rcuo::retire(object); }));
    EXPECT(is_refused([&] { rcuo::retire(std::move(owned)); }));
    EXPECT(is_refused([] { rcuo::call(call_plain); }));
    rcuo::barrier();
    EXPECT(counted::live == 2 && owned && plain_calls == 1);
    rcuo::retire(object);
    rcuo::retire(std::move(owned));
    rcuo::barrier();
    EXPECT(counted::live == 0);
}

void test_pointers() {
    std::array<int, 2> numbers = {{1, 2}};
    std::atomic<int *> plain(nullptr);
    EXPECT(rcuo::dereference(plain) == nullptr);
    rcuo::publish(plain, &numbers[0]);
    EXPECT(*rcuo::dereference(plain) == 1);
    rcuo::atomic_ptr<int> pointer;
    EXPECT(pointer.load() == nullptr);
    pointer.store(&numbers[0]);
    EXPECT(pointer.exchange(&numbers[1]) == &numbers[0]);
    int *expected = &numbers[0];
    EXPECT(!pointer.compare_exchange(expected, &numbers[0]) && expected == &numbers[1]);
    EXPECT(pointer.compare_exchange(expected, &numbers[0]) && pointer.load() == &numbers[0]);
    EXPECT(rcuo::atomic_ptr<int>(&numbers[1]).load() == &numbers[1]);
}

/* A callback waits for the sections that were open, and nobody for a thread that is offline. */
void test_readers() {
    rcuo::runtime runtime;
    std::atomic<bool> reads(false), ran(false), done(false);
    std::thread reader([&] {
        rcuo::registration here(runtime);
        {
            rcuo::read_section reading;
            reads = true;
            std::this_thread::sleep_for(std::chrono::milliseconds(30));
            EXPECT(!ran.load());
        }
        rcuo::offline waits;
        while (!done.load()) std::this_thread::yield();
    });
    while (!reads.load()) std::this_thread::yield();
    rcuo::call([&] { ran = true; });
    rcuo::barrier();
    EXPECT(ran.load());
    done = true;
    reader.join();
}

/* A thread uses two runtimes, each by its own registration. */
void test_two_runtimes() {
    rcuo::runtime one, other;
    rcuo::registration with_other(other);
    {
        rcuo::registration with_one(one);
        rcuo::barrier();
    }
    EXPECT(refusal_of([&] { other.stop(); }) == RCUO_FULL);
    EXPECT(refusal_of([&] { one.stop(); }) == RCUO_OK);
}

} // namespace

int main() {
    test_runtimes();
    test_threads();
    test_calls();
    test_what_comes_back();
    test_retired();
    /* (valgrind has operator new for itself) */
    const bool can_refuse = is_refused([] { ::operator delete(::operator new(1)); });
    if (can_refuse) test_refused_memory();
    test_pointers();
    test_readers();
    test_two_runtimes();
    std::puts(can_refuse ? "all tests passed" : "all tests passed but those that refuse memory, which can't be refused here");
}
