// Checks of scripts by threads that stand from block to block, as in Bitcoin Core's CCheckQueue. The thread that adds
// them is one of the workers once it has no more to add.
#pragma once
#include <condition_variable>
#include <mutex>
#include <thread>

#include "scripts.h"

class Checks {
    static constexpr size_t MOST = 128;
    std::mutex lock;
    std::condition_variable more, done;
    std::vector<Job> waiting;
    const Table* table = nullptr;
    // Those that were added and aren't finished, and the threads that wait for some.
    size_t open = 0, idle = 0;
    bool all_hold = true, ends = false;
    std::vector<std::thread> threads;

    // Takes some of those that wait: fewer towards the end, so that all threads finish at about the same time.
    void claim(std::vector<Job>& own) {
        size_t share = waiting.size() / (threads.size() + idle + 2);
        size_t count = std::clamp<size_t>(share, 1, MOST);
        own.assign(waiting.end() - count, waiting.end());
        waiting.resize(waiting.size() - count);
    }
    static bool verified(const std::vector<Job>& jobs, const Table& table) {
        return std::all_of(jobs.begin(), jobs.end(), [&](const Job& job) { return verify(job, table); });
    }
    // Works until nothing waits; `rest` then says whether to go on.
    template <class Rest>
    void work(std::unique_lock<std::mutex>& guard, const Rest& rest) {
        std::vector<Job> own;
        own.reserve(MOST);
        while (!waiting.empty() || rest()) {
            claim(own);
            bool holds = all_hold;
            const Table& signatures = *table;
            guard.unlock();
            holds = holds && verified(own, signatures);
            guard.lock();
            all_hold = all_hold && holds;
            open -= own.size();
            if (open == 0) done.notify_one();
        }
    }
    void stand() {
        std::unique_lock guard(lock);
        work(guard, [&] {
            idle++;
            more.wait(guard, [&] { return ends || !waiting.empty(); });
            idle--;
            return !ends;
        });
    }

public:
    // As many threads as workers, of which the caller's is one.
    explicit Checks(size_t workers) {
        for (size_t i = 1; i < workers; i++) threads.emplace_back([this] { stand(); });
    }
    Checks(const Checks&) = delete;
    ~Checks() {
        {
            std::lock_guard guard(lock);
            ends = true;
        }
        more.notify_all();
        for (std::thread& thread : threads) thread.join();
    }
    bool has_threads() const { return !threads.empty(); }
    // The jobs and what they point to stay until `finish`.
    void add(const std::vector<Job>& jobs, const Table& signatures) {
        if (jobs.empty()) return;
        {
            std::lock_guard guard(lock);
            table = &signatures;
            waiting.insert(waiting.end(), jobs.begin(), jobs.end());
            open += jobs.size();
        }
        if (jobs.size() == 1) more.notify_one();
        else more.notify_all();
    }
    // Works along, waits for the others, and says whether all jobs since the last time hold.
    bool finish() {
        std::unique_lock guard(lock);
        work(guard, [] { return false; });
        done.wait(guard, [&] { return open == 0; });
        return std::exchange(all_hold, true);
    }
};

// The jobs of one block: they end before what they point to, also where the block is refused.
class Round {
    Checks& checks;
    const Table& table;
    bool holds = true, is_over = false;

public:
    Round(Checks& checks, const Table& table) : checks(checks), table(table) {}
    Round(const Round&) = delete;
    ~Round() { finish(); }
    // With one worker they are verified at once.
    void add(const std::vector<Job>& jobs) {
        if (checks.has_threads()) return checks.add(jobs, table);
        for (const Job& job : jobs) holds = holds && verify(job, table);
    }
    bool finish() {
        if (!std::exchange(is_over, true)) holds = checks.finish() && holds;
        return holds;
    }
};
