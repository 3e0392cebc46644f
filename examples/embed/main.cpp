// embed: a toy simulator around the cache, to copy from.
//
//   embed ACCESSES LOG STREAM
//
// ACCESSES is text: a settings line, then reads and writes in order. Each cycle the toy ticks,
// fills the read that its memory has finished, sends the queue head, and offers the next
// access; a refused access is offered again in the next cycle. LOG gets the event records of
// all calls, STREAM the command records that repeat them: running STREAM writes LOG again,
// byte for byte.
//
// In order: the access list; the cache with its log and stream; the memory; the core; main.
#include "labintugmo.hpp"

#include <cinttypes>
#include <cstdio>
#include <cstdlib>
#include <deque>
#include <fstream>
#include <map>
#include <sstream>
#include <string>

namespace {

using labintugmo::Access;
using labintugmo::Answer;
using labintugmo::Cache;
using labintugmo::Refusal;
using labintugmo::Rule;
using labintugmo::Settings;

// ---- The access list ----

struct AccessList {
    Settings settings;
    std::vector<Access> accesses;
};

// A word that must come next, then a number of at most so many bits, decimal or behind 0x.
std::optional<std::uint64_t> number_after(std::istream& words, const char* expected, int bits) {
    std::string word, digits;
    if (expected != nullptr && !(words >> word && word == expected)) {
        return std::nullopt;
    }
    if (!(words >> digits) || digits[0] < '0' || digits[0] > '9') {
        return std::nullopt;
    }
    char* end = nullptr;
    const bool hexadecimal = digits.size() > 2 && digits[0] == '0' && digits[1] == 'x';
    const unsigned long long number =
        std::strtoull(digits.c_str(), &end, hexadecimal ? 16 : 10);
    if (*end != '\0' || (bits < 64 && number >> bits != 0)) {
        return std::nullopt;
    }
    return number;
}

// `rule` and its name, or nothing, which is rule lru.
bool read_rule(std::istream& words, Rule& rule) {
    std::string word;
    if (!(words >> word)) {
        return true;
    }
    if (word != "rule" || !(words >> word)) {
        return false;
    }
    for (const Rule known : {Rule::lru, Rule::fifo, Rule::tree}) {
        if (word == name(known)) {
            rule = known;
            return true;
        }
    }
    return false;
}

bool read_settings(std::istream& words, Settings& settings) {
    const std::pair<const char*, std::uint32_t*> fields[] = {
        {"sets", &settings.sets},       {"ways", &settings.ways},
        {"dirty", &settings.dirty},     {"misses", &settings.misses},
        {"readers", &settings.readers}, {"queue", &settings.queue}};
    for (const auto& [word, field] : fields) {
        const auto number = number_after(words, word, 32);
        if (!number) {
            return false;
        }
        *field = static_cast<std::uint32_t>(*number);
    }
    return read_rule(words, settings.rule);
}

// False if the line is no `settings`, `read` or `write` line.
bool read_line(const std::string& line, AccessList& list) {
    std::istringstream words(line.substr(0, line.find('#')));
    std::string kind, rest;
    if (!(words >> kind)) {
        return true;
    }
    if (kind == "settings") {
        return read_settings(words, list.settings) && !(words >> rest);
    }
    const auto address = number_after(words, nullptr, 64);
    const auto second = number_after(words, kind == "read" ? "ticket" : "mask", 32);
    if ((kind != "read" && kind != "write") || !address || !second || words >> rest) {
        return false;
    }
    const auto number = static_cast<std::uint32_t>(*second);
    list.accesses.push_back(kind == "read" ? Access::read(*address, number)
                                           : Access::write(*address, number));
    return true;
}

std::optional<AccessList> read_list(const char* path) {
    std::ifstream file(path);
    if (!file) {
        std::fprintf(stderr, "embed: cannot read %s\n", path);
        return std::nullopt;
    }
    AccessList list;
    std::string line;
    for (int number = 1; std::getline(file, line); ++number) {
        if (!read_line(line, list)) {
            std::fprintf(stderr, "embed: %s, line %d: not understood: %s\n", path, number,
                         line.c_str());
            return std::nullopt;
        }
    }
    return list;
}

// ---- The cache with its log and stream ----

// Every call leaves its command in the stream and its events in the log, refused or not.
class LoggedCache {
public:
    explicit LoggedCache(Cache cache) : cache_(std::move(cache)) {
        commands_.settings(cache_.settings());
    }

    labintugmo::AccessResult offer(const Access& access) {
        if (access.is_write) {
            commands_.write(access.address, access.mask);
        } else {
            commands_.read(access.address, access.ticket);
        }
        return logged(cache_.access(access));
    }
    labintugmo::SendResult send() {
        commands_.send();
        return logged(cache_.send());
    }
    labintugmo::FillResult fill(std::uint64_t address) {
        commands_.fill(address);
        return logged(cache_.fill(address));
    }
    labintugmo::TickResult tick(std::uint32_t cycle) {
        commands_.tick(cycle);
        return logged(cache_.tick(cycle));
    }

    const Cache& cache() const { return cache_; }
    const std::vector<std::uint8_t>& log() const { return log_; }
    const std::vector<std::uint8_t>& stream() const { return commands_.bytes(); }

private:
    template <class Result>
    Result logged(Result result) {
        log_.insert(log_.end(), result.data(), result.data() + result.size());
        return result;
    }

    Cache cache_;
    labintugmo::Commands commands_;
    std::vector<std::uint8_t> log_;
};

// ---- The memory ----

// Answers each read a fixed number of cycles after it was sent, in order; write-backs need
// no answer.
class ToyMemory {
public:
    void take(const labintugmo::SendResult& sent, std::uint32_t cycle) {
        if (const auto read = sent.read()) {
            waiting_.push_back({cycle + latency, read->address});
        }
    }
    // The read that is finished by now, one a cycle.
    std::optional<std::uint64_t> finished(std::uint32_t cycle) {
        if (waiting_.empty() || waiting_.front().due > cycle) {
            return std::nullopt;
        }
        const std::uint64_t address = waiting_.front().address;
        waiting_.pop_front();
        return address;
    }
    bool idle() const { return waiting_.empty(); }

private:
    static constexpr std::uint32_t latency = 12;
    struct Waiting {
        std::uint32_t due;
        std::uint64_t address;
    };
    std::deque<Waiting> waiting_;
};

// ---- The core ----

struct Counts {
    std::map<Answer, int> answers;
    std::map<Refusal, int> refusals;
    int given_up = 0;
    int released = 0;
    std::uint32_t cycles = 0;
    std::optional<Refusal> fault;
};

// Whether the same access can succeed later. One that is held can only if a fill makes another
// line dirty, so with nothing on its way it waits for ever.
bool worth_a_retry(Refusal refusal, const Cache& cache) {
    switch (refusal) {
    case Refusal::set_busy:
    case Refusal::queue_full:
    case Refusal::entry_full:
    case Refusal::misses_full: return true;
    case Refusal::set_held: return cache.queued() > 0 || cache.misses() > 0;
    default: return false;
    }
}

// One cycle of the memory: what is finished is filled, the queue head is sent. Neither can be
// refused, nor can the tick, unless something has overwritten the tables.
std::optional<Refusal> memory_cycle(LoggedCache& cache, ToyMemory& memory, Counts& counts) {
    if (const auto ticked = cache.tick(counts.cycles); !ticked) {
        return ticked.refusal();
    }
    if (const auto address = memory.finished(counts.cycles)) {
        const auto filled = cache.fill(*address);
        if (!filled) {
            return filled.refusal();
        }
        counts.released += static_cast<int>(filled.tickets().size());
    }
    if (cache.cache().queued() > 0) {
        const auto sent = cache.send();
        if (!sent) {
            return sent.refusal();
        }
        memory.take(sent, counts.cycles);
    }
    return std::nullopt;
}

Counts simulate(LoggedCache& cache, const std::vector<Access>& accesses) {
    Counts counts;
    ToyMemory memory;
    std::size_t next = 0;
    while (next < accesses.size() || cache.cache().queued() > 0 || !memory.idle()) {
        ++counts.cycles;
        counts.fault = memory_cycle(cache, memory, counts);
        if (counts.fault) {
            break;
        }
        if (next == accesses.size()) {
            continue;
        }
        const labintugmo::AccessResult result = cache.offer(accesses[next]);
        if (const auto answer = result.answer()) {
            ++counts.answers[*answer];
            ++next;
        } else if (const auto refusal = result.refusal()) {
            ++counts.refusals[*refusal];
            if (!worth_a_retry(*refusal, cache.cache())) {
                ++counts.given_up;
                ++next;
            }
        }
    }
    return counts;
}

// ---- Main ----

bool write_file(const char* path, const std::vector<std::uint8_t>& bytes) {
    std::ofstream file(path, std::ios::binary);
    file.write(reinterpret_cast<const char*>(bytes.data()),
               static_cast<std::streamsize>(bytes.size()));
    file.close();
    if (!file) {
        std::fprintf(stderr, "embed: cannot write %s\n", path);
    }
    return static_cast<bool>(file);
}

void print(const Counts& counts, std::size_t accesses) {
    std::printf("%zu accesses in %" PRIu32 " cycles, %d given up, %d readers released\n", accesses,
                counts.cycles, counts.given_up, counts.released);
    for (const auto& [answer, count] : counts.answers) {
        std::printf("  answered %-12s %5d\n", name(answer), count);
    }
    for (const auto& [refusal, count] : counts.refusals) {
        std::printf("  refused  %2d %5d  (%s)\n", static_cast<int>(refusal), count, name(refusal));
    }
}

}  // namespace

int main(int argc, char** argv) {
    if (argc != 4) {
        std::fprintf(stderr, "usage: embed ACCESSES LOG STREAM\n");
        return 2;
    }
    const auto list = read_list(argv[1]);
    if (!list) {
        return 1;
    }
    auto cache = Cache::make(list->settings);
    if (!cache) {
        std::fprintf(stderr, "embed: a setting is out of range\n");
        return 1;
    }
    LoggedCache logged(std::move(*cache));
    const Counts counts = simulate(logged, list->accesses);
    print(counts, list->accesses.size());
    if (counts.fault) {
        std::fprintf(stderr, "embed: stopped in cycle %" PRIu32 ": %s\n", counts.cycles,
                     name(*counts.fault));
        return 1;
    }
    return write_file(argv[2], logged.log()) && write_file(argv[3], logged.stream()) ? 0 : 1;
}
