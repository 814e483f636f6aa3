#include "launch.h"

#include <chrono>
#include <cstdio>
#include <pthread.h>
#include <thread>
#include <unistd.h>

namespace gpurace {
namespace {

constexpr double GRACE = 1.0; // seconds in which threads are to see that the launch is stopped

volatile sig_atomic_t interrupt = 0; // the signal that came
void note_interrupt(int signal) { interrupt = signal; }

// The thread that watches: one for the process, since launches may be many and short.
struct Watcher {
    std::mutex lock;
    Launch *launch = nullptr;
    double end = 0;
    uint64_t number = 0; // of launches that were watched
    bool has_thread = false;

    void watch() {
        std::unique_lock<std::mutex> held(lock);
        double stopped_at = 0;
        for (uint64_t seen = 0;;) {
            held.unlock(); // it looks from time to time: to wake it for each launch would cost small ones more than they do
            std::this_thread::sleep_for(std::chrono::milliseconds(20));
            held.lock();
            if (!launch) continue;
            if (seen != number) seen = number, stopped_at = 0;
            const double now = seconds_now();
            if (!stopped_at && (interrupt || (end > 0 && now > end))) {
                launch->is_timed_out = !interrupt;
                launch->is_stopped = launch->is_over = true;
                stopped_at = now;
            }
            if (stopped_at && now > stopped_at + GRACE) write_and_end(*launch);
        }
    }

    // The launch's threads stay in their kernel and call the runtime no more, so that what they have can be written.
    void write_and_end(Launch &stopped) {
        stopped.abandon();
        if (stopped.request.is_recorded()) end_folder(stopped, 0);
        std::fflush(nullptr);
        if (interrupt) {
            std::signal(interrupt, SIG_DFL);
            kill(getpid(), interrupt);
        }
        _exit(TIMED_OUT);
    }
};
auto &watcher = *new Watcher;

} // namespace

Signals::Signals() {
    struct sigaction noted {};
    noted.sa_handler = note_interrupt;
    sigemptyset(&noted.sa_mask);
    interrupt = 0;
    for (size_t at = 0; at < std::size(NUMBERS); at++) {
        sigaction(NUMBERS[at], nullptr, &before_[at]);
        if (before_[at].sa_handler != SIG_IGN) sigaction(NUMBERS[at], &noted, nullptr); // as nohup has it
    }
}

Signals::~Signals() {
    for (size_t at = 0; at < std::size(NUMBERS); at++) sigaction(NUMBERS[at], &before_[at], nullptr);
    if (interrupt) kill(getpid(), interrupt); // now the program's own way
}

Watched::Watched(Launch &launch) {
    const std::lock_guard<std::mutex> held(watcher.lock);
    if (!watcher.has_thread) try {
        pthread_atfork(nullptr, nullptr, [] { new (&watcher) Watcher; }); // a forked process has no such thread
        std::thread([] {
            sigset_t all; // signals are the program's own threads'
            sigfillset(&all);
            pthread_sigmask(SIG_BLOCK, &all, nullptr);
            watcher.watch();
        }).detach();
        watcher.has_thread = true;
    } catch (const std::exception &) {} // without memory for it nobody watches
    watcher.launch = &launch;
    watcher.number++;
    watcher.end = settings().timeout > 0 ? seconds_now() + settings().timeout : 0;
}

Watched::~Watched() {
    const std::lock_guard<std::mutex> held(watcher.lock);
    watcher.launch = nullptr;
}

} // namespace gpurace
