// Commits in groups, with two syncs for each group or pipelined, for tools/bench_groups.py.
//
//     bench_groups FILE two|pipelined gather|brief|none SESSIONS THINK SPREAD SECONDS SYNC
//
// Each session is a thread. It thinks for THINK microseconds of processor time, more or less by up to SPREAD, and then commits a record of 64 bytes.
// `two` does what shared_store does: bodies, sync, gate, sync. `pipelined` writes the bodies of a group and the gate of the group before, and makes one sync.
// Before it writes, a session waits for those that were acknowledged lately, so that their next commits go with its own; with `none` it does not:
//   gather: by the rule of shared_store (log_door.rt), but asleep: until all are back, or none has come for 250 microseconds
//   brief:  until all are back, or half the time of a sync is over
// If SYNC is not 0, a sync sleeps for so many microseconds and leaves the file alone.
// The program prints the commits a second, the syncs for each commit, and in microseconds the mean latency of a commit and the mean time of a sync.
#include <fcntl.h>
#include <sys/prctl.h>
#include <unistd.h>

#include <algorithm>
#include <atomic>
#include <chrono>
#include <condition_variable>
#include <cstdio>
#include <cstdlib>
#include <ctime>
#include <mutex>
#include <random>
#include <string>
#include <thread>
#include <vector>

using Clock = std::chrono::steady_clock;
using Micros = std::chrono::duration<double, std::micro>;
constexpr size_t record_bytes = 64;
constexpr long record_places = 16'384, most_sessions = 1'024;
constexpr Micros quiet(250);

void must(bool done, const char *what) {
    if (!done) {
        std::perror(what);
        std::exit(1);
    }
}

// A file that is written in full before, in which the records go round; or the same with syncs that only sleep.
struct Disk {
    Disk(const char *path, double sync_micros) : file(open(path, O_RDWR | O_CREAT, 0600)), simulated(sync_micros) {
        write(0, record_bytes * (record_places + most_sessions));
        must(fsync(file) == 0, "fsync");
    }

    void write(long place, size_t count) {
        std::string bytes(count, char(syncs));
        must(pwrite(file, bytes.data(), count, place % record_places * long(record_bytes)) == ssize_t(count), "pwrite");
    }

    void sync() {
        auto start = Clock::now();
        simulated.count() > 0 ? std::this_thread::sleep_for(simulated) : must(fdatasync(file) == 0, "fdatasync");
        last = Clock::now() - start;
        total += last;
        syncs++;
    }

    int file;
    Micros simulated, last{0}, total{0};
    long syncs = 0;
};

// The door at which sessions sleep until their commits count. One of them writes for all.
class Door {
  public:
    Door(Disk &disk, std::string scheme, std::string rule, size_t sessions)
        : disk_(disk), is_pipelined_(scheme == "pipelined"), gathers_(rule == "gather"), waits_(rule != "none"), visitors_(sessions) {}

    void commit(size_t session) {
        std::unique_lock lock(mutex_);
        Visitor &visitor = visitors_[session];
        visitor.state = State::waiting;
        arrived_.notify_one();
        while (visitor.state != State::acknowledged) {
            if (may_write()) {
                is_writing_ = true;
                gather(lock);
                write_group(lock);
                is_writing_ = false;
            } else {
                visitor.wake.wait(lock);
            }
        }
        visitor.state = State::away;
        auto next = std::find_if(visitors_.begin(), visitors_.end(), [](auto &it) { return it.is_back(); });
        if (next != visitors_.end() && may_write()) {
            next->wake.notify_one();
        }
    }

  private:
    // `written`: the body is written, and the commit does not count yet.
    enum class State { away, waiting, written, acknowledged };
    struct Visitor {
        State state = State::away;
        long served = 0;  // the write that acknowledged it last
        std::condition_variable wake;
        bool is_back() const { return state == State::waiting || state == State::written; }
    };

    // (by the rule of shared_store, those that were acknowledged leave before the next write begins)
    bool may_write() const {
        return !is_writing_ && !(gathers_ && std::any_of(visitors_.begin(), visitors_.end(), [](auto &it) { return it.state == State::acknowledged; }));
    }

    // True if each session that one of the last two writes acknowledged is back.
    bool are_gathered() const {
        return std::all_of(visitors_.begin(), visitors_.end(), [&](auto &it) { return it.is_back() || writes_ - it.served >= 2; });
    }

    void gather(std::unique_lock<std::mutex> &lock) {
        auto limit = Clock::now() + (gathers_ ? quiet : disk_.last / 2);
        while (waits_ && !are_gathered() && arrived_.wait_until(lock, limit) == std::cv_status::no_timeout) {
            limit = gathers_ ? Clock::now() + quiet : limit;
        }
    }

    void write_group(std::unique_lock<std::mutex> &lock) {
        std::vector<Visitor *> group;
        for (Visitor &it : visitors_) {
            if (it.state == State::waiting) {
                it.state = State::written;
                group.push_back(&it);
            }
        }
        lock.unlock();
        long gate = records_ - long(pending_.size());
        if (!group.empty()) {
            disk_.write(records_, record_bytes * group.size());
            records_ += long(group.size());
        }
        if (!is_pipelined_) {
            disk_.sync();
            pending_.swap(group);
        }
        if (!pending_.empty()) {
            disk_.write(gate, 1);
        }
        disk_.sync();
        lock.lock();
        writes_++;
        for (Visitor *it : pending_) {
            it->state = State::acknowledged;
            it->served = writes_;
            it->wake.notify_one();
        }
        pending_ = std::move(group);
    }

    Disk &disk_;
    const bool is_pipelined_, gathers_, waits_;
    std::mutex mutex_;
    std::condition_variable arrived_;
    std::vector<Visitor> visitors_;
    std::vector<Visitor *> pending_;  // those whose bodies are safe, and whose gate is closed
    bool is_writing_ = false;
    long writes_ = 2, records_ = 0;
};

// Returns the microseconds of processor time that this thread has used.
double used() {
    timespec now;
    clock_gettime(CLOCK_THREAD_CPUTIME_ID, &now);
    return double(now.tv_sec) * 1e6 + double(now.tv_nsec) / 1e3;
}

int main(int count, char **words) {
    must(count == 9, "usage: bench_groups FILE two|pipelined gather|brief|none SESSIONS THINK SPREAD SECONDS SYNC");
    auto number = [&](int word) { return std::atof(words[word]); };
    Disk disk(words[1], number(8));
    Door door(disk, words[2], words[3], size_t(number(4)));
    std::atomic<long> commits = 0, waited = 0;
    auto start = Clock::now();
    auto session = [&](size_t place) {
        prctl(PR_SET_TIMERSLACK, 1);  // (a sleep ends in time, and not up to 50 microseconds later)
        std::mt19937 random{unsigned(place)};
        std::uniform_real_distribution<double> around(number(5) - number(6), number(5) + number(6));
        while (Micros(Clock::now() - start).count() < number(7) * 1e6) {
            for (double thinking = around(random), end = used() + thinking; thinking > 0 && used() < end;) {}
            auto asked = Clock::now();
            door.commit(place);
            waited += std::chrono::nanoseconds(Clock::now() - asked).count();
            commits++;
        }
    };
    std::vector<std::thread> threads;
    for (size_t place = 0; place < size_t(number(4)); place++) {
        threads.emplace_back(session, place);
    }
    for (std::thread &it : threads) {
        it.join();
    }
    double seconds = Micros(Clock::now() - start).count() / 1e6, all = double(commits), syncs = double(disk.syncs);
    std::printf("%.0f %.4f %.0f %.0f\n", all / seconds, syncs / all, double(waited) / all / 1e3, disk.total.count() / syncs);
}
