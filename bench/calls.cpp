// The cost of one exported call from C++, with its check and without it.
//
// With: the call, on tables filled as the other measurements fill them, beside the check alone.
// A step: the same by a labintugmo::Cache, which checks nothing.
// A record: the same as a record of a stream, which labintugmo_run runs without a check; the
// time of the stream with many such records at its end, less that of the stream without them,
// over their number.
//
//   calls [RATIOS]
//   calls --count TABLES CALL NUMBER
//
// The first prints a Markdown table; the file RATIOS gets the ratios alone. The second makes one
// call so many times, for a program that counts instructions: CALL is check, tick, read, or nothing
// for all but the call.
#include "labintugmo.hpp"

#include <array>
#include <cstdio>
#include <cstdlib>
#include <ctime>
#include <functional>
#include <string>

namespace {

using labintugmo::Cache;
using labintugmo::Commands;
using labintugmo::Settings;

// Seconds of processor time that this program has had.
double processor_time() {
    timespec time{};
    clock_gettime(CLOCK_PROCESS_CPUTIME_ID, &time);
    return static_cast<double>(time.tv_sec) + static_cast<double>(time.tv_nsec) / 1e9;
}

using Work = std::function<void()>;

double seconds(const Work& work, long count) {
    const double start = processor_time();
    for (long i = 0; i < count; ++i) {
        work();
    }
    return processor_time() - start;
}

// Nanoseconds of one of each piece of work: the best of many short batches, taken in turns.
template <std::size_t N>
std::array<double, N> one(const std::array<Work, N>& works) {
    std::array<long, N> counts{};
    std::array<double, N> least{};
    for (std::size_t i = 0; i < N; ++i) {
        counts[i] = 1;
        while (seconds(works[i], counts[i]) < 0.004) {
            counts[i] *= 2;
        }
        least[i] = 1e9;
    }
    for (int round = 0; round < 60; ++round) {
        for (std::size_t i = 0; i < N; ++i) {
            const double time = seconds(works[i], counts[i]) / static_cast<double>(counts[i]);
            least[i] = time < least[i] ? time : least[i];
        }
    }
    for (double& time : least) {
        time *= 1e9;
    }
    return least;
}

void expect(bool fine, const char* what) {
    if (!fine) {
        std::fprintf(stderr, "calls: %s\n", what);
        std::exit(1);
    }
}

// So many live lines, a third of them with a dirty sector, and so many miss entries, each but the
// last with four readers, the later half of them in the queue and the others sent.
Commands filling(const Settings& settings, std::uint64_t lines, std::uint64_t reads) {
    Commands commands;
    commands.settings(settings);
    for (std::uint64_t block = 0; block < lines; ++block) {
        const std::uint64_t address = 128 * block;
        commands.read(address, 0);
        commands.send();
        commands.fill(address);
        if (block % 3 == 0) {
            commands.write(address + 32, 0xFF);
        }
    }
    for (std::uint64_t block = 0; block < reads; ++block) {
        const std::uint32_t readers = block + 1 < reads ? 4 : 1;
        for (std::uint32_t ticket = 0; ticket < readers; ++ticket) {
            commands.read(128 * block + 64, ticket);
        }
    }
    for (std::uint64_t sent = 0; sent < reads / 2; ++sent) {
        commands.send();
    }
    return commands;
}

// A stream, and all that its run needs.
struct Stream {
    std::vector<std::uint8_t> bytes, room;
    Cache cache;

    explicit Stream(const Commands& commands)
        : bytes(commands.bytes()),
          room(labintugmo::event_room(bytes.data(), bytes.size())),
          cache(*labintugmo::run(bytes).cache) {}

    void run() {
        const auto ran = cache.run(bytes.data(), bytes.size(), room.data(), room.size());
        expect(ran.stop == labintugmo::Stop::end, "a stream stops before its end");
    }
};

struct Cost {
    double check, tick, tick_step, tick_record, read, read_step, read_record;
};

// A call on lent tables, with its check; how many bytes it writes.
template <class Function, class... Arguments>
std::size_t call(Function function, const Settings& s, labintugmo::Tables& t, Arguments... rest) {
    std::array<std::uint8_t, LABINTUGMO_ROOM> events;
    const Settings::Numbers settings = s.numbers();
    return function(settings.data(), settings.size(), t.longs.data(), t.longs.size(),
                    t.words.data(), t.words.size(), t.marks.data(), t.marks.size(), rest...,
                    events.data(), events.size());
}

constexpr long repeats = 200000;

Cost measure(const Commands& start, bool hits) {
    Commands ticks = start, reads = start;
    for (long i = 0; i < repeats; ++i) {
        ticks.tick(0);
        reads.read(0, 0);
    }
    Stream filled(start), ticked(ticks), read(hits ? reads : start);
    Cache cache = filled.cache;
    const Settings settings = cache.settings();
    labintugmo::Tables tables = cache.tables();
    const std::vector<std::uint8_t> log = labintugmo::run(start.bytes()).log;
    for (const auto& event : labintugmo::Log(log)) {
        expect(!std::holds_alternative<labintugmo::Refused>(event), "a filling call is refused");
    }
    expect(!hits || cache.read(0, 0).answer() == labintugmo::Answer::hit, "a read is no HIT");
    volatile std::size_t written = 0;  // keeps the work from being left out
    const std::uint64_t address = 0;
    const std::uint32_t none = 0;
    const auto times = one<8>({[&] { written = cache.check().has_value(); },
                               [&] { written = call(labintugmo_tick, settings, tables, none); },
                               [&] { written = cache.tick(0).size(); },
                               [&] { written = hits ? call(labintugmo_read, settings, tables, address, none) : 0; },
                               [&] { written = hits ? cache.read(0, 0).size() : 0; },
                               [&] { filled.run(); }, [&] { ticked.run(); }, [&] { read.run(); }});
    return {times[0], times[1], times[2], (times[6] - times[5]) / repeats,
            times[3], times[4], (times[7] - times[5]) / repeats};
}

std::string cell(const char* format, double number) {
    char text[32];
    std::snprintf(text, sizeof text, format, number);
    return std::string(" ") + text + " |";
}

const char* const title = "### One exported call from C++\n\n"
    "The tables of 1,024 lines are those of the soundness check; a read is a HIT. A call checks "
    "its tables; a step of a labintugmo::Cache does not; a record of a stream is read and run "
    "without a check.\n\n";

struct Kind {
    const char *word, *name;
    Settings settings;
    std::uint64_t lines, reads;
};

const Kind kinds[] = {{"one", "1 x 1, one live line", {1, 1, 0, 1, 4, 2}, 1, 0},
                      {"fresh", "256 x 4, fresh", {256, 4, 0, 64, 4, 64}, 0, 0},
                      {"half", "256 x 4, half full", {256, 4, 0, 64, 4, 64}, 512, 32},
                      {"full", "256 x 4, full", {256, 4, 0, 64, 4, 64}, 1024, 62}};

// The same call so many times, each on a copy of the same tables.
void repeat(const Kind& kind, const std::string& what, long number) {
    const Cache cache = Stream(filling(kind.settings, kind.lines, kind.reads)).cache;
    volatile std::size_t written = 0;
    const std::uint64_t address = 0;
    const std::uint32_t none = 0;
    for (long i = 0; i < number; ++i) {
        labintugmo::Tables tables = cache.tables();
        if (what == "check") {
            written = cache.check().has_value();
            expect(written == 0, "the tables are not sound");
        } else if (what == "tick") {
            written = call(labintugmo_tick, kind.settings, tables, none);
            expect(written == 1, "a tick is refused");
        } else if (what == "read") {
            written = call(labintugmo_read, kind.settings, tables, address, none);
            expect(written == (kind.lines > 0 ? 4 : 13), "a read is no HIT, or no MISS on fresh tables");
        } else {
            expect(what == "nothing", "no such call");
        }
    }
}

}  // namespace

int main(int argc, char** argv) {
    if (argc == 5 && std::string(argv[1]) == "--count") {
        for (const auto& kind : kinds) {
            if (std::string(argv[2]) == kind.word) {
                repeat(kind, argv[3], std::atol(argv[4]));
                return 0;
            }
        }
        expect(false, "no such tables");
    }
    std::string figures = std::string(title) +
        "| | check alone | tick: call | step | record | read: call | step | record |\n"
        "|---|---:|---:|---:|---:|---:|---:|---:|\n";
    std::string ratios = std::string(title) +
        "| | tick: call over record | step over record | read: call over record | step over record |\n"
        "|---|---:|---:|---:|---:|\n";
    for (const auto& kind : kinds) {
        const Cost cost = measure(filling(kind.settings, kind.lines, kind.reads), kind.lines > 0);
        const std::string name = std::string("| ") + kind.name + " |";
        figures += name + cell("%.0f ns", cost.check) + cell("%.0f ns", cost.tick) +
                   cell("%.1f ns", cost.tick_step) + cell("%.1f ns", cost.tick_record);
        ratios += name + cell("%.1f", cost.tick / cost.tick_record) +
                  cell("%.2f", cost.tick_step / cost.tick_record);
        if (kind.lines > 0) {
            figures += cell("%.0f ns", cost.read) + cell("%.1f ns", cost.read_step) +
                       cell("%.1f ns", cost.read_record);
            ratios += cell("%.1f", cost.read / cost.read_record) +
                      cell("%.2f", cost.read_step / cost.read_record);
        } else {
            figures += " | | |";
            ratios += " | |";
        }
        figures += "\n";
        ratios += "\n";
    }
    std::printf("%s", figures.c_str());
    if (argc > 1) {
        std::FILE* file = std::fopen(argv[1], "w");
        expect(file != nullptr && std::fputs(ratios.c_str(), file) >= 0 && std::fclose(file) == 0,
               "the ratios cannot be written");
    }
    return 0;
}
