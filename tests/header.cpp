// The C++ header: the cache and what its calls return, the replacement rules, events of calls and
// of logs whole and damaged, wait and a longer wait by hand, runs, kept, restored, adopted and released tables,
// caches moved from, results that no call made.
//
// Ends with a line `header: N checks, M failed` and a status.
#include "labintugmo.hpp"

#include <cstdio>
#include <string>
#include <type_traits>

namespace {

using namespace labintugmo;
using Bytes = std::vector<std::uint8_t>;

int checks = 0;
int failures = 0;

#define CHECK(condition)                                                       \
    do {                                                                       \
        ++checks;                                                              \
        if (!(condition)) {                                                    \
            ++failures;                                                        \
            std::printf("header.cpp:%d: not so: %s\n", __LINE__, #condition);  \
        }                                                                      \
    } while (0)

constexpr Settings base{1, 2, 50, 2, 2, 4};

Cache fresh(const Settings& settings = base) {
    auto cache = Cache::make(settings);
    CHECK(cache.has_value());
    return *cache;
}

template <class Result>
Bytes bytes_of(const Result& result) {
    return Bytes(result.data(), result.data() + result.size());
}

// A letter for each event, to compare sequences.
template <class Range>
std::string letters(const Range& events) {
    std::string text;
    for (const Event& event : events) {
        text += std::visit(
            Overloaded{[](const Answered&) { return 'a'; }, [](const Refused&) { return '!'; },
                       [](const ReadQueued&) { return 'r'; },
                       [](const WriteBackQueued&) { return 'w'; },
                       [](const Released&) { return 't'; }, [](const ReadSent&) { return 'R'; },
                       [](const WriteBackSent&) { return 'W'; },
                       [](const Filled&) { return 'f'; }, [](const Ticked&) { return '.'; }},
            event);
    }
    return text;
}

void settings_and_layout() {
    for (const Settings bad : {Settings{}, Settings{3, 2, 50, 2, 2, 4}, Settings{256, 5, 50, 2, 2, 4},
                               Settings{1, 2, 50, 2, 2, 0xFFFFFFFF},
                               Settings{1, 2, 50, 2, 2, 4, static_cast<Rule>(3)},
                               Settings{1, 3, 50, 2, 2, 4, Rule::tree}}) {
        CHECK(!bad.in_range());
        CHECK(!Cache::make(bad));
    }
    const Settings wide{64, 4, 50, 16, 8, 32};
    const Settings::Numbers numbers = wide.numbers();
    CHECK(numbers[LABINTUGMO_SETS] == wide.sets && numbers[LABINTUGMO_WAYS] == wide.ways);
    CHECK(numbers[LABINTUGMO_DIRTY] == wide.dirty && numbers[LABINTUGMO_MISSES] == wide.misses);
    CHECK(numbers[LABINTUGMO_READERS] == wide.readers && numbers[LABINTUGMO_QUEUE] == wide.queue);
    CHECK(numbers[LABINTUGMO_RULE] == LABINTUGMO_LRU && wide.rule == Rule::lru);
    const Layout at(wide);
    CHECK(wide.in_range() && wide.lines() == 256);
    CHECK(at.tag(255) + 1 == at.miss_address(0) && at.miss_address(15) + 1 == at.queue_address(0));
    CHECK(at.queue_address(31) + 1 == wide.longs_length());
    CHECK(at.current_cycle() + 1 == at.line_cycle(0) && at.line_cycle(255) + 1 == at.mask(0, 0));
    CHECK(at.mask(255, 3) + 1 == at.ticket(0, 0) && at.ticket(15, 7) + 1 == at.queue_mask(0, 0));
    CHECK(at.queue_mask(31, 3) + 1 == at.dirty_count() && at.dirty_count() + 1 == at.taken_cycle(0));
    CHECK(at.taken_cycle(255) + 1 == at.tree(0) && at.tree(63) + 1 == wide.words_length());
    CHECK(at.status(255, 3) + 1 == at.readable(0, 0) && at.readable(255, 3) + 1 == at.sent(0));
    CHECK(at.sent(15) + 1 == at.ticket_count(0) && at.ticket_count(15) + 1 == at.queue_kind(0));
    CHECK(at.queue_kind(31) + 1 == wide.marks_length());
}

// Document 01's whole run, call by call and as a stream.
void whole_run() {
    Cache cache = fresh();
    Commands commands;
    CHECK(commands.settings(base));
    Bytes log;
    const auto keep = [&log](const CallResult& result) {
        log.insert(log.end(), result.data(), result.data() + result.size());
    };

    const AccessResult first = cache.read(0, 7);
    commands.read(0, 7);
    keep(first);
    CHECK(first && first.answer() == Answer::miss && first.line() == 1);
    CHECK(first.read_queued()->address == 0 && !first.write_back_queued() && !first.refusal());
    CHECK(cache.queued() == 1 && cache.misses() == 1);
    CHECK(cache.tables().longs[cache.layout().miss_address(0)] == 0);
    CHECK(cache.tables().words[cache.layout().ticket(0, 0)] == 7);

    const AccessResult second = cache.access(Access::read(0, 9));
    commands.read(0, 9);
    keep(second);
    CHECK(second.answer() == Answer::hit_reserved && letters(second) == "a");

    const SendResult sent = cache.send();
    commands.send();
    keep(sent);
    CHECK(sent && sent.read()->address == 0 && !sent.write_back() && cache.queued() == 0);

    const FillResult filled = cache.fill(0);
    commands.fill(0);
    keep(filled);
    CHECK(filled && letters(filled) == "ftt");
    CHECK((filled.tickets() == std::vector<std::uint32_t>{7, 9}) && cache.misses() == 0);
    CHECK(letters(Log(log)) == "araRftt" && Log(log).whole() == 45 && log.size() == 45);

    const Run repeated = run(commands.bytes());
    CHECK(repeated.result.stop == Stop::end && repeated.result.written == 45);
    CHECK(repeated.result.consumed == commands.bytes().size());
    CHECK(repeated.log == log && repeated.cache->tables() == cache.tables());
}

void refusals() {
    Cache cache = fresh();
    const Tables before = cache.tables();
    CHECK(cache.send().refusal() == Refusal::queue_empty && !cache.send());
    CHECK(cache.fill(0).refusal() == Refusal::not_sent);
    CHECK(cache.read(1, 0).refusal() == Refusal::not_well_formed);
    CHECK(cache.write(0, 0).refusal() == Refusal::not_well_formed);
    CHECK(cache.access({false, 0, 1, 0}).refusal() == Refusal::not_well_formed);
    CHECK(cache.tick(0xFFFFFFFF).refusal() == Refusal::bad_cycle);
    CHECK(cache.tables() == before && !cache.check());
    CHECK(letters(cache.send()) == "!" && cache.send().size() == 2);
    CHECK(!cache.read(1, 0).answer() && !cache.read(1, 0).line());
    CHECK(cache.tick(5) && cache.cycle() == 5 && letters(cache.tick(5)) == ".");
    CHECK(cache.tick(4).refusal() == Refusal::bad_cycle);
    CHECK(std::string(name(Refusal::queue_empty)) == "queue empty");
    CHECK(std::string(name(Answer::sector_miss)) == "SECTOR_MISS");
    CHECK(std::string(name(Stop::cut_short)) == "cut short");
    CHECK(std::string(name(Rule::lru)) == "lru" && std::string(name(Rule::fifo)) == "fifo");
    CHECK(std::string(name(Rule::tree)) == "tree");
}

// A victim with dirty bytes, case 11 of document 01.
void write_back() {
    Cache cache = fresh();
    CHECK(cache.write(0, 0xFF).line() == 1 && cache.write(128, 0xFF).line() == 0);
    const AccessResult third = cache.write(256, 0xFF);
    CHECK(third.line() == 0 && letters(third) == "aw");
    const auto queued = third.write_back_queued();
    CHECK(queued && queued->block == 128 && (queued->masks == Masks{0xFF, 0, 0, 0}));
    const SendResult sent = cache.send();
    CHECK(sent.write_back()->block == 128 && sent.write_back()->masks == queued->masks);
    CHECK(!sent.read());
}

// Line 1 is taken at cycle 1 and used at 9, line 0 is taken at 2 and left alone: which line a MISS
// at 10 takes, and the same by a stream with these settings.
std::uint16_t taken_line(const Settings& settings) {
    Cache cache = fresh(settings);
    Commands commands;
    CHECK(commands.settings(settings));
    const auto write = [&](std::uint32_t cycle, std::uint64_t address) {
        CHECK(cache.tick(cycle).accepted());
        commands.tick(cycle);
        commands.write(address, 0xFF);
        return cache.write(address, 0xFF);
    };
    CHECK(write(1, 0).line() == 1 && write(2, 128).line() == 0);
    CHECK(write(9, 0).answer() == Answer::hit && !cache.check());
    const Layout at = cache.layout();
    CHECK(cache.tables().words[at.line_cycle(1)] == 9 && cache.tables().words[at.taken_cycle(1)] == 1);
    CHECK(cache.tables().words[at.line_cycle(0)] == 2 && cache.tables().words[at.taken_cycle(0)] == 2);
    const AccessResult miss = write(10, 256);
    CHECK(miss.answer() == Answer::miss && miss.write_back_queued());
    const Run repeated = run(commands.bytes());
    CHECK(repeated.result.stop == Stop::end && repeated.cache->settings().rule == settings.rule);
    CHECK(repeated.cache->tables() == cache.tables());
    return *miss.line();
}

void rules() {
    Settings settings = base;
    CHECK(taken_line(settings) == 0);
    settings.rule = Rule::fifo;
    CHECK(taken_line(settings) == 1);
    CHECK(taken_line({1, 2, 50, 2, 2, 4, Rule::lru}) == 0);

    // A rule byte only where it says something; one that is no rule is refused by the runner.
    Commands commands;
    CHECK(commands.settings(base) && commands.bytes().size() == 8);
    Commands ruled;
    CHECK(ruled.settings(settings) && ruled.bytes().size() == 9 && ruled.bytes()[0] == 6);
    CHECK(run(ruled.bytes()).cache->settings().rule == Rule::fifo);
    Bytes other = ruled.bytes();
    other[8] = 3;
    CHECK(run(other).result.stop == Stop::bad_settings && !run(other).cache);
    other.pop_back();
    CHECK(run(other).result.stop == Stop::cut_short && !run(other).cache);
    CHECK(!commands.settings({1, 2, 50, 2, 2, 4, static_cast<Rule>(256)}));
    CHECK(commands.bytes().size() == 8);

    // Tables have the same lengths under every rule; a cache that runs a stream has the stream's rule.
    Cache cache = fresh();
    Bytes events(LABINTUGMO_ROOM);
    CHECK(cache.run(ruled.bytes().data(), 9, events.data(), events.size()).consumed == 9);
    CHECK(cache.settings().rule == Rule::fifo && cache.run(nullptr, 0, nullptr, 0).stop == Stop::end);
    CHECK(cache.settings().rule == Rule::fifo && Cache::adopt(base, cache.tables()));
    Tables later = cache.tables();
    later.words[cache.layout().taken_cycle(0)] = 1;
    CHECK(cache.restore(later) == Refusal::not_sound);
}

// The worked examples of the tree rule: the tree that each access leaves, and the line that it takes.
void trees() {
    const Settings settings{1, 4, 50, 4, 1, 4, Rule::tree};
    Cache cache = fresh(settings);
    const std::size_t tree = cache.layout().tree(0);
    for (std::uint64_t block = 0; block < 4; ++block) {
        CHECK(cache.read(128 * block, 1).line() == 3 - block && cache.send() && cache.fill(128 * block));
    }
    CHECK(cache.tables().words[tree] == 7 && cache.read(1, 1).refusal() && cache.tables().words[tree] == 7);
    CHECK(cache.read(512, 1).line() == 3 && cache.tables().words[tree] == 2 && !cache.check());

    // With ways 2 and 3 RESERVED the half that the tree names has no candidate.
    CHECK(!cache.reset() && cache.tables().words[tree] == 0);
    for (std::uint64_t block = 0; block < 4; ++block) {
        CHECK(cache.read(128 * block, 1) && cache.send());
    }
    CHECK(cache.fill(256) && cache.fill(384) && cache.tables().words[tree] == 7);
    CHECK(cache.read(512, 1).line() == 1 && cache.tables().words[tree] == 5);

    Tables other = cache.tables();
    other.words[tree] = 8;
    CHECK(cache.restore(other) == Refusal::not_sound);
    Settings lru = settings;
    lru.rule = Rule::lru;
    CHECK(!Cache::adopt(lru, cache.tables()));
}

void damaged_logs() {
    const Bytes none;
    CHECK(Log(none).whole() == 0 && letters(Log(none)).empty());
    CHECK(Log(nullptr, 0).begin() == Log(nullptr, 0).end());
    struct Damaged {
        Bytes bytes;
        std::size_t whole;
    };
    const Damaged logs[] = {
        {{0x18, 0x18, 0x00}, 2},                  // a command's kind
        {{0x18, 0x19}, 1},                        // no kind
        {{0x18, 0x0F, 0x18}, 1},
        {{0x10, 0, 0, 0}, 0},                     // no answer
        {{0x10, 5, 0, 0}, 0},
        {{0x11, 12, 0x11, 13}, 2},                // no refusal
        {{0x11, 0}, 0},
        {{0x18, 0x14, 1, 2, 3}, 1},               // cut short
        {{0x13, 0, 0, 0, 0, 0, 0, 0, 0}, 0},
        {{0x10, 4, 0xFF, 0x03, 0x18}, 5},         // whole
    };
    for (const Damaged& log : logs) {
        CHECK(Log(log.bytes).whole() == log.whole);
    }
    const auto answered = std::get<Answered>(decode(logs[9].bytes.data(), 4)->event);
    CHECK(answered.answer == Answer::sector_miss && answered.line == 1023);
}

// The same rounds as wait, by the single calls.
void waits() {
    const Settings tight{1, 2, 50, 2, 2, 2};
    Cache cache = fresh(tight);
    CHECK(cache.read(0, 1) && cache.send() && cache.read(128, 2));
    const Access access = Access::read(256, 3);
    CHECK(cache.access(access).refusal() == Refusal::set_busy);

    Cache by_hand = cache;
    Bytes log;
    const auto keep = [&log](const CallResult& result) {
        log.insert(log.end(), result.data(), result.data() + result.size());
    };
    const std::size_t bound = cache.queued() + cache.misses();
    std::uint64_t rounds = 0;
    for (bool accepted = false; !accepted && rounds < bound;) {
        ++rounds;
        if (by_hand.queued() > 0) {
            keep(by_hand.send());
        }
        const Layout at = by_hand.layout();
        for (std::size_t entry = 0; entry < tight.misses; ++entry) {
            if (by_hand.tables().marks[at.sent(entry)] == 1) {
                keep(by_hand.fill(by_hand.tables().longs[at.miss_address(entry)]));
                break;
            }
        }
        const AccessResult offer = by_hand.access(access);
        accepted = offer.accepted();
        if (accepted) {
            keep(offer);
        }
    }
    const WaitResult waited = cache.wait(access);
    CHECK(waited && waited.round() == rounds && !waited.refusal());
    CHECK(bytes_of(waited) == log && cache.tables() == by_hand.tables());
    CHECK(letters(waited) == letters(Log(log)));
}

// Case 13 of document 01: held with P 60, and for ever; also a malformed access.
void held_waits() {
    Cache cache = fresh({2, 1, 60, 2, 2, 4});
    CHECK(cache.write(0, 0xFF).accepted());
    const Tables before = cache.tables();
    const WaitResult held = cache.wait(Access::write(256, 1));
    CHECK(!held && !held.round() && held.refusal() == Refusal::set_held);
    CHECK(letters(held) == "!" && cache.tables() == before);
    const WaitResult malformed = cache.wait(Access::write(256, 0));
    CHECK(!malformed && malformed.refusal() == Refusal::not_well_formed);
    Cache other = fresh({2, 1, 50, 2, 2, 4});
    CHECK(other.write(0, 0xFF) && other.wait(Access::write(256, 1)).round() == 1u);
}

void runs() {
    Commands commands;
    CHECK(!commands.settings({0x10000, 1, 0, 1, 1, 2}) && !commands.settings({1, 256, 0, 1, 1, 2}));
    CHECK(commands.bytes().empty() && run(commands.bytes()).result.stop == Stop::end);
    commands.settings({3, 1, 0, 1, 1, 2});
    const Run refused = run(commands.bytes());
    CHECK(refused.result.stop == Stop::bad_settings && !refused.cache && refused.log.empty());

    Commands good;
    good.settings(base);
    good.write(0, 0xFF);
    good.tick(3);
    good.read(0, 1);
    Bytes stream = good.bytes();
    stream.push_back(0x99);
    const Run stopped = run(stream);
    CHECK(stopped.result.stop == Stop::unknown_kind && stopped.cache->cycle() == 3);
    CHECK(stopped.result.consumed == good.bytes().size() && letters(Log(stopped.log)) == "a.ar");

    // On a cache of other settings whose tables have the same lengths; then of other lengths.
    Cache same_lengths = fresh({1, 2, 10, 2, 2, 4, Rule::tree});
    Bytes events(event_room(stream.data(), stream.size()));
    RunResult result = same_lengths.run(stream.data(), stream.size(), events.data(), events.size());
    CHECK(result.stop == Stop::unknown_kind && same_lengths.settings().rule == Rule::lru);
    CHECK(same_lengths.settings().dirty == 50 && !same_lengths.check());
    CHECK(same_lengths.tables() == stopped.cache->tables());
    Cache other_lengths = fresh({4, 1, 10, 2, 2, 4});
    result = other_lengths.run(stream.data(), stream.size(), events.data(), events.size());
    CHECK(result.stop == Stop::other_length && result.consumed == 0 && result.written == 0);
    CHECK(other_lengths.settings().sets == 4 && !other_lengths.check());
    result = same_lengths.run(stream.data(), stream.size(), events.data(), 64);
    CHECK(result.stop == Stop::no_room && result.written == 4);
}

// A stream cut between any two records, part by part on one cache: as one run.
void parts() {
    Commands whole;
    CHECK(whole.settings(base));
    std::vector<std::size_t> ends{whole.bytes().size()};
    const auto end = [&] { ends.push_back(whole.bytes().size()); };
    for (std::uint32_t i = 0; i < 12; ++i) {
        whole.tick(i), end();
        whole.read(128 * (i % 5), i), end();
        whole.write(128 * (i % 3) + 32, 0xFF), end();
        whole.send(), end();
        whole.fill(128 * (i % 5)), end();
    }
    const Bytes& stream = whole.bytes();
    const Run once = run(stream);
    for (const std::size_t cut : ends) {
        Bytes log(once.log.size() + 2 * LABINTUGMO_ROOM);
        Cache cache = fresh();
        const RunResult first = cache.run(stream.data(), cut, log.data(), log.size());
        CHECK(first.stop == Stop::end && first.consumed == cut);
        const RunResult rest = cache.resume(stream.data() + cut, stream.size() - cut,
                                            log.data() + first.written, log.size() - first.written);
        CHECK(rest.stop == Stop::end && rest.consumed == stream.size() - cut);
        log.resize(first.written + rest.written);
        CHECK(log == once.log && cache.tables() == once.cache->tables());
    }
    Cache cache = fresh();
    Bytes events(LABINTUGMO_ROOM);
    CHECK(cache.resume(stream.data(), 8, events.data(), events.size()).stop == Stop::settings_place);
    CHECK(cache.resume(nullptr, 0, nullptr, 0).stop == Stop::end);
    const std::uint8_t tick[] = {5, 1, 0, 0};
    CHECK(cache.resume(tick, 4, events.data(), events.size()).stop == Stop::cut_short);
}

// A cache steps without a check; its answers, events and tables are those of the checked calls.
void as_the_calls(Rule rule) {
    const Settings s{2, 2, 30, 3, 2, 5, rule};
    const Settings::Numbers numbers = s.numbers();
    Cache cache = fresh(s);
    Tables t = cache.tables();
    const auto lent = [&](auto function, auto... rest) {
        Bytes events(LABINTUGMO_ROOM);
        events.resize(function(numbers.data(), numbers.size(), t.longs.data(), t.longs.size(),
                               t.words.data(), t.words.size(), t.marks.data(), t.marks.size(),
                               rest..., events.data(), events.size()));
        return events;
    };
    std::uint32_t state = 1;
    const auto next = [&state](std::uint32_t below) {
        state = state * 1664525 + 1013904223;
        return (state >> 8) % below;
    };
    bool same = true;
    for (std::uint32_t i = 0; same && i < 20000; ++i) {
        const std::uint64_t address = 32 * std::uint64_t{next(40)} + (next(50) == 0 ? 1 : 0);
        const std::uint32_t mask = next(8) * 0x10101;
        const std::uint32_t is_write = next(2);
        switch (next(6)) {
        case 0: same = bytes_of(cache.read(address, i)) == lent(labintugmo_read, address, i); break;
        case 1: same = bytes_of(cache.write(address, mask)) == lent(labintugmo_write, address, mask); break;
        case 2: same = bytes_of(cache.send()) == lent(labintugmo_send); break;
        case 3: same = bytes_of(cache.fill(address)) == lent(labintugmo_fill, address); break;
        case 4: same = bytes_of(cache.tick(i / 2)) == lent(labintugmo_tick, i / 2); break;
        default:
            same = bytes_of(cache.access({is_write == 1, address, mask & 1, i})) ==
                   lent(labintugmo_access, is_write, address, mask & 1, i);
        }
        same = same && cache.tables() == t;
    }
    CHECK(same && !cache.check());
}

void kept_tables() {
    Cache cache = fresh();
    const Tables kept = cache.tables();
    CHECK(cache.read(0, 7));
    const Tables later = cache.tables();
    CHECK(kept != later && !cache.restore(kept) && cache.tables() == kept);
    CHECK(!cache.restore(later) && cache.misses() == 1);
    Tables damaged = later;
    damaged.marks[cache.layout().status(0, 0)] = 4;
    CHECK(cache.restore(damaged) == Refusal::not_sound && cache.tables() == later);
    CHECK(cache.restore(Tables{}) == Refusal::other_length && cache.tables() == later);
    CHECK(!cache.reset() && cache.tables() == kept);
}

// Empty: nothing to read, and every call is refused with 1.
void refuses_all(Cache& cache) {
    CHECK(cache.empty() && cache.tables() == Tables{} && !cache.settings().in_range());
    CHECK(cache.queued() == 0 && cache.misses() == 0 && cache.cycle() == 0);
    CHECK(cache.read(0, 1).refusal() == Refusal::bad_settings);
    CHECK(cache.write(0, 1).refusal() == Refusal::bad_settings);
    CHECK(cache.access(Access::read(0, 1)).refusal() == Refusal::bad_settings);
    CHECK(cache.access({false, 0, 1, 0}).refusal() == Refusal::bad_settings);
    CHECK(cache.send().refusal() == Refusal::bad_settings && letters(cache.send()) == "!");
    CHECK(cache.fill(0).refusal() == Refusal::bad_settings);
    CHECK(cache.tick(1).refusal() == Refusal::bad_settings);
    CHECK(cache.wait(Access::read(0, 1)).refusal() == Refusal::bad_settings);
    CHECK(cache.check() == Refusal::bad_settings && cache.reset() == Refusal::bad_settings);
    CHECK(cache.restore(Tables{}) == Refusal::bad_settings);
    Commands commands;
    CHECK(commands.settings(base));
    Bytes events(LABINTUGMO_ROOM);
    const RunResult ran =
        cache.run(commands.bytes().data(), commands.bytes().size(), events.data(), events.size());
    CHECK(ran.stop == Stop::other_length && ran.consumed == 0 && cache.empty());
    CHECK(cache.resume(nullptr, 0, events.data(), events.size()).stop == Stop::bad_settings);
}

void moved() {
    static_assert(std::is_nothrow_move_constructible_v<Cache>);
    static_assert(std::is_nothrow_move_assignable_v<Cache>);
    Cache cache = fresh();
    CHECK(cache.read(0, 7) && cache.tick(3));
    const Tables kept = cache.tables();

    Cache other = std::move(cache);
    CHECK(other.tables() == kept && other.cycle() == 3 && other.queued() == 1);
    refuses_all(cache);
    Cache third = fresh({4, 1, 10, 2, 2, 4});
    third = std::move(other);
    CHECK(third.tables() == kept && third.settings().sets == 1 && !third.check());
    refuses_all(other);

    // A copy of an empty cache is empty; one that was moved from may be given another.
    Cache copy = other;
    refuses_all(copy);
    other = third;
    CHECK(other.tables() == kept && other.send().read()->address == 0 && third.queued() == 1);
    Cache& same = other;
    other = std::move(same);
    CHECK(!other.empty() && other.misses() == 1);
    other = same;
    CHECK(!other.check() && other.misses() == 1);
}

void adopted() {
    Cache cache = fresh();
    CHECK(cache.read(0, 7));
    Tables tables = cache.tables();
    std::uint8_t* const pointer = tables.marks.data();
    auto taken = Cache::adopt(base, std::move(tables));
    CHECK(taken && taken->tables() == cache.tables() && taken->send() && taken->fill(0));
    // What still points into the vectors that were given does not reach the cache's own.
    CHECK(pointer != taken->tables().marks.data());

    Refusal why = Refusal::queue_empty;
    CHECK(!Cache::adopt({3, 2, 50, 2, 2, 4}, cache.tables(), &why) && why == Refusal::bad_settings);
    CHECK(!Cache::adopt({1, 4, 50, 2, 2, 4}, cache.tables(), &why) && why == Refusal::other_length);
    CHECK(!Cache::adopt(base, Tables::zero(base), &why) && why == Refusal::not_sound);
    CHECK(!Cache::adopt(base, Tables::zero(base)) && !Cache::adopt({}, {}));

    const Tables before = cache.tables();
    const Tables given = cache.release();
    CHECK(given == before);
    refuses_all(cache);
    auto again = Cache::adopt(base, given);
    CHECK(again && again->misses() == 1);

    // Nobody but the cache can write its tables.
    static_assert(std::is_same_v<decltype(std::declval<Cache&>().tables()), const Tables&>);
    static_assert(!std::is_constructible_v<Cache, Settings, Tables>);
}

void results_of_no_call() {
    CHECK(!CallResult{} && !CallResult{}.accepted() && !CallResult{}.refusal());
    CHECK(!AccessResult{} && !AccessResult{}.answer() && !SendResult{} && !FillResult{});
    CHECK(!WaitResult{} && !WaitResult{}.refusal() && RunResult{}.stop != Stop::end);
    static_assert(std::is_constructible_v<Log, const Bytes&>);
    static_assert(std::is_constructible_v<Log, Bytes&>);
    static_assert(!std::is_constructible_v<Log, Bytes>);
    static_assert(!std::is_constructible_v<Log, const Bytes>);
}

}  // namespace

int main() {
    settings_and_layout();
    whole_run();
    refusals();
    write_back();
    rules();
    trees();
    damaged_logs();
    waits();
    held_waits();
    runs();
    parts();
    as_the_calls(Rule::lru);
    as_the_calls(Rule::fifo);
    as_the_calls(Rule::tree);
    kept_tables();
    moved();
    adopted();
    results_of_no_call();
    std::printf("header: %d checks, %d failed\n", checks, failures);
    return failures == 0 ? 0 : 1;
}
