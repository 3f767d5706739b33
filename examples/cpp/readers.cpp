/*
 * Readers and an updater over the managed runtime, in C++: readers [ROUNDS]
 *
 * Three threads read a configuration without a lock, while the first thread publishes new ones and retires the old.
 */
#include <cstdlib>
#include <iostream>
#include <rcuo/runtime.hpp>
#include <thread>
#include <vector>

namespace {

struct config {
    explicit config(unsigned long from) : version(from), twice(2 * from) {}
    config(const config &) = delete;
    config &operator=(const config &) = delete;
    ~config() { twice = version + 1; } /* (so that a reader which comes too late sees it) */
    unsigned long version, twice;
};

rcuo::atomic_ptr<config> current;
std::atomic<bool> over;
std::atomic<unsigned long> faults;

void read_configs(const rcuo::runtime &runtime) {
    rcuo::registration here(runtime);
    while (!over.load()) {
        {
            rcuo::read_section reading;
            const config *now = current.load();
            if (now->twice != 2 * now->version) faults++;
        }
        rcuo::quiescent_state();
    }
}

} // namespace

int main(int many, char **words) {
    const unsigned long rounds = many > 1 ? std::strtoul(words[1], nullptr, 10) : 100000;
    rcuo::runtime runtime;
    current.store(new config(0));
    std::vector<std::thread> readers;
    for (int n = 0; n < 3; n++) readers.emplace_back(read_configs, std::cref(runtime));
    for (unsigned long round = 1; round <= rounds; round++) rcuo::retire(current.exchange(new config(round)));
    over = true;
    for (std::thread &reader : readers) reader.join();
    delete current.load();
    runtime.stop(); /* (all that was retired has been destroyed) */
    std::cout << "published " << rounds << ", faults " << faults.load() << '\n';
    return faults.load() != 0;
}
