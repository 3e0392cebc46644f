// labintugmo.hpp: the verified GPU sector cache for C++17, header only, over labintugmo.h and,
// for the steps of a Cache, labintugmo_steps.h.
//
// In order: settings, lent tables and where their numbers stand; answers, refusals, stops and
// rules by name; events and how they are read from bytes; what the calls return; command streams;
// the cache; whole runs.
//
// A refusal is a value, never an exception; only memory that cannot be had throws, from
// std::vector, and then nothing has changed. A Cache owns its tables and may be copied and
// moved. It has no lock: a cache that several threads use needs one around it.
#ifndef LABINTUGMO_HPP
#define LABINTUGMO_HPP

#include "labintugmo.h"
#include "labintugmo_steps.h"

#include <array>
#include <cstddef>
#include <cstdint>
#include <iterator>
#include <optional>
#include <utility>
#include <variant>
#include <vector>

namespace labintugmo {

// ---- Settings and lent tables ----

// How a victim is chosen where no line is wholly invalid.
enum class Rule : std::uint32_t {
    lru = LABINTUGMO_LRU,
    fifo = LABINTUGMO_FIFO,
    tree = LABINTUGMO_TREE
};

// Any numbers; in_range says whether a cache can have them. The ranges stand in labintugmo.h.
struct Settings {
    std::uint32_t sets = 0;
    std::uint32_t ways = 0;
    std::uint32_t dirty = 0;
    std::uint32_t misses = 0;
    std::uint32_t readers = 0;
    std::uint32_t queue = 0;
    Rule rule = Rule::lru;

    // The slice that the calls in C are lent.
    using Numbers = std::array<std::uint32_t, LABINTUGMO_SETTINGS>;
    Numbers numbers() const noexcept {
        return {sets, ways, dirty, misses, readers, queue, static_cast<std::uint32_t>(rule)};
    }

    std::size_t longs_length() const noexcept { return length(labintugmo_longs_length); }
    std::size_t words_length() const noexcept { return length(labintugmo_words_length); }
    std::size_t marks_length() const noexcept { return length(labintugmo_marks_length); }
    bool in_range() const noexcept { return longs_length() != 0; }
    std::size_t lines() const noexcept { return std::size_t{sets} * ways; }

private:
    template <class Function>
    std::size_t length(Function function) const noexcept {
        const Numbers lent = numbers();
        return function(lent.data(), lent.size());
    }
};

// The three arrays of one cache.
struct Tables {
    std::vector<std::uint64_t> longs;
    std::vector<std::uint32_t> words;
    std::vector<std::uint8_t> marks;

    // Of the right lengths for settings in range, but neither fresh nor sound yet.
    static Tables zero(const Settings& s) {
        return {std::vector<std::uint64_t>(s.longs_length()),
                std::vector<std::uint32_t>(s.words_length()),
                std::vector<std::uint8_t>(s.marks_length())};
    }
};

inline bool operator==(const Tables& a, const Tables& b) {
    return a.longs == b.longs && a.words == b.words && a.marks == b.marks;
}
inline bool operator!=(const Tables& a, const Tables& b) { return !(a == b); }

// Where each number stands, for settings in range: an index into longs, words or marks.
class Layout {
public:
    explicit Layout(const Settings& s) noexcept
        : lines_(s.lines()), misses_(s.misses), readers_(s.readers), queue_(s.queue) {}

    // In longs.
    std::size_t tag(std::size_t line) const noexcept { return line; }
    std::size_t miss_address(std::size_t entry) const noexcept { return lines_ + entry; }
    std::size_t queue_address(std::size_t place) const noexcept {
        return lines_ + misses_ + place;
    }

    // In words.
    std::size_t current_cycle() const noexcept { return 0; }
    std::size_t line_cycle(std::size_t line) const noexcept { return 1 + line; }
    std::size_t mask(std::size_t line, std::size_t sector) const noexcept {
        return 1 + lines_ + 4 * line + sector;
    }
    std::size_t ticket(std::size_t entry, std::size_t which) const noexcept {
        return 1 + 5 * lines_ + readers_ * entry + which;
    }
    std::size_t queue_mask(std::size_t place, std::size_t sector) const noexcept {
        return 1 + 5 * lines_ + readers_ * misses_ + 4 * place + sector;
    }
    std::size_t dirty_count() const noexcept { return queue_mask(queue_, 0); }
    std::size_t taken_cycle(std::size_t line) const noexcept { return dirty_count() + 1 + line; }
    std::size_t tree(std::size_t set) const noexcept { return taken_cycle(lines_) + set; }

    // In marks.
    std::size_t status(std::size_t line, std::size_t sector) const noexcept {
        return 4 * line + sector;
    }
    std::size_t readable(std::size_t line, std::size_t sector) const noexcept {
        return 4 * lines_ + 4 * line + sector;
    }
    std::size_t sent(std::size_t entry) const noexcept { return 8 * lines_ + entry; }
    std::size_t ticket_count(std::size_t entry) const noexcept {
        return 8 * lines_ + misses_ + entry;
    }
    std::size_t queue_kind(std::size_t place) const noexcept {
        return 8 * lines_ + 2 * misses_ + place;
    }

private:
    std::size_t lines_;
    std::size_t misses_;
    std::size_t readers_;
    std::size_t queue_;
};

// ---- Answers, refusals, stops and rules ----

enum class Answer : std::uint8_t {
    hit = LABINTUGMO_HIT,
    hit_reserved = LABINTUGMO_HIT_RESERVED,
    miss = LABINTUGMO_MISS,
    sector_miss = LABINTUGMO_SECTOR_MISS
};

enum class Refusal : std::uint8_t {
    bad_settings = LABINTUGMO_BAD_SETTINGS,
    other_length = LABINTUGMO_OTHER_LENGTH,
    not_sound = LABINTUGMO_NOT_SOUND,
    not_well_formed = LABINTUGMO_NOT_WELL_FORMED,
    set_busy = LABINTUGMO_SET_BUSY,
    set_held = LABINTUGMO_SET_HELD,
    queue_full = LABINTUGMO_QUEUE_FULL,
    entry_full = LABINTUGMO_ENTRY_FULL,
    misses_full = LABINTUGMO_MISSES_FULL,
    not_sent = LABINTUGMO_NOT_SENT,
    bad_cycle = LABINTUGMO_BAD_CYCLE,
    queue_empty = LABINTUGMO_QUEUE_EMPTY
};

enum class Stop : std::uint32_t {
    end = LABINTUGMO_END,
    bad_settings = LABINTUGMO_BAD_SETTINGS,
    other_length = LABINTUGMO_OTHER_LENGTH,
    not_sound = LABINTUGMO_NOT_SOUND,
    settings_place = LABINTUGMO_SETTINGS_PLACE,
    unknown_kind = LABINTUGMO_UNKNOWN_KIND,
    cut_short = LABINTUGMO_CUT_SHORT,
    no_room = LABINTUGMO_NO_ROOM
};

inline const char* name(Answer answer) noexcept {
    switch (answer) {
    case Answer::hit: return "HIT";
    case Answer::hit_reserved: return "HIT_RESERVED";
    case Answer::miss: return "MISS";
    case Answer::sector_miss: return "SECTOR_MISS";
    }
    return "no answer";
}

inline const char* name(Refusal refusal) noexcept {
    switch (refusal) {
    case Refusal::bad_settings: return "a setting outside its range";
    case Refusal::other_length: return "a lent slice of another length";
    case Refusal::not_sound: return "tables not sound";
    case Refusal::not_well_formed: return "access not well formed";
    case Refusal::set_busy: return "set busy";
    case Refusal::set_held: return "set held";
    case Refusal::queue_full: return "too few free queue places";
    case Refusal::entry_full: return "miss entry has all its readers";
    case Refusal::misses_full: return "no free miss entry";
    case Refusal::not_sent: return "no sent entry with that address";
    case Refusal::bad_cycle: return "tick to an earlier cycle or past the latest";
    case Refusal::queue_empty: return "queue empty";
    }
    return "no refusal";
}

inline const char* name(Stop stop) noexcept {
    switch (stop) {
    case Stop::end: return "end of input";
    case Stop::bad_settings: return "bad settings";
    case Stop::other_length: return "lent tables of another length";
    case Stop::not_sound: return "tables not sound";
    case Stop::settings_place: return "settings not first, or another kind first";
    case Stop::unknown_kind: return "unknown kind";
    case Stop::cut_short: return "cut short";
    case Stop::no_room: return "too little event room";
    }
    return "no stop";
}

// As the assembler has it.
inline const char* name(Rule rule) noexcept {
    switch (rule) {
    case Rule::lru: return "lru";
    case Rule::fifo: return "fifo";
    case Rule::tree: return "tree";
    }
    return "no rule";
}

// ---- Events ----

using Masks = std::array<std::uint32_t, LABINTUGMO_SECTORS>;

struct Answered {
    Answer answer;
    std::uint16_t line;
};
struct Refused {
    Refusal refusal;
};
struct ReadQueued {
    std::uint64_t address;
};
struct WriteBackQueued {
    std::uint64_t block;
    Masks masks;
};
struct Released {
    std::uint32_t ticket;
};
struct ReadSent {
    std::uint64_t address;
};
struct WriteBackSent {
    std::uint64_t block;
    Masks masks;
};
struct Filled {
    std::uint64_t address;
};
struct Ticked {};

// In the order of the record kinds 0x10 to 0x18.
using Event = std::variant<Answered, Refused, ReadQueued, WriteBackQueued, Released, ReadSent,
                           WriteBackSent, Filled, Ticked>;

// For std::visit with a lambda for each kind of event.
template <class... Cases>
struct Overloaded : Cases... {
    using Cases::operator()...;
};
template <class... Cases>
Overloaded(Cases...) -> Overloaded<Cases...>;

// One event and the bytes of its record.
struct Decoded {
    Event event;
    std::size_t size;
};

namespace detail {

inline std::uint64_t number(const std::uint8_t* at, std::size_t bytes) noexcept {
    std::uint64_t value = 0;
    for (std::size_t i = bytes; i > 0; --i) {
        value = value << 8 | at[i - 1];
    }
    return value;
}

inline std::uint32_t number32(const std::uint8_t* at) noexcept {
    return static_cast<std::uint32_t>(number(at, 4));
}

inline Masks masks(const std::uint8_t* at) noexcept {
    return {number32(at), number32(at + 4), number32(at + 8), number32(at + 12)};
}

// Body lengths of the event kinds 0x10 to 0x18, and of the command kinds 0 to 6.
constexpr std::array<std::size_t, 9> event_lengths{3, 1, 8, 24, 4, 8, 24, 8, 0};
constexpr std::array<std::size_t, 7> command_lengths{7, 12, 12, 0, 8, 4, 8};

// Of a settings record, with its rule or without, at the start of a stream; none if another
// record stands there, or the record is not whole.
inline std::optional<Settings> settings_in(const std::uint8_t* stream,
                                           std::size_t length) noexcept {
    if (length == 0 || (stream[0] != LABINTUGMO_COMMAND_SETTINGS &&
                        stream[0] != LABINTUGMO_COMMAND_RULED)) {
        return std::nullopt;
    }
    if (length <= command_lengths[stream[0]]) {
        return std::nullopt;
    }
    const bool ruled = stream[0] == LABINTUGMO_COMMAND_RULED;
    return Settings{static_cast<std::uint32_t>(number(stream + 1, 2)),
                    stream[3], stream[4], stream[5], stream[6], stream[7],
                    ruled ? static_cast<Rule>(stream[8]) : Rule::lru};
}

}  // namespace detail

// The event at the start of some bytes; none if the kind is no event's, the record is cut
// short, or its body is no event's (an answer outside 1 to 4, a refusal outside 1 to 12).
inline std::optional<Decoded> decode(const std::uint8_t* bytes, std::size_t length) noexcept {
    if (length == 0 || bytes[0] < LABINTUGMO_EVENT_ANSWER || bytes[0] > LABINTUGMO_EVENT_TICKED) {
        return std::nullopt;
    }
    const std::size_t size =
        1 + detail::event_lengths[std::size_t{bytes[0]} - LABINTUGMO_EVENT_ANSWER];
    if (length < size) {
        return std::nullopt;
    }
    const std::uint8_t* body = bytes + 1;
    switch (bytes[0]) {
    case LABINTUGMO_EVENT_ANSWER:
        if (body[0] < LABINTUGMO_HIT || body[0] > LABINTUGMO_SECTOR_MISS) {
            return std::nullopt;
        }
        return Decoded{Answered{static_cast<Answer>(body[0]),
                                static_cast<std::uint16_t>(detail::number(body + 1, 2))}, size};
    case LABINTUGMO_EVENT_REFUSED:
        if (body[0] < LABINTUGMO_BAD_SETTINGS || body[0] > LABINTUGMO_QUEUE_EMPTY) {
            return std::nullopt;
        }
        return Decoded{Refused{static_cast<Refusal>(body[0])}, size};
    case LABINTUGMO_EVENT_READ_QUEUED: return Decoded{ReadQueued{detail::number(body, 8)}, size};
    case LABINTUGMO_EVENT_WRITE_BACK_QUEUED:
        return Decoded{WriteBackQueued{detail::number(body, 8), detail::masks(body + 8)}, size};
    case LABINTUGMO_EVENT_RELEASED: return Decoded{Released{detail::number32(body)}, size};
    case LABINTUGMO_EVENT_READ_SENT: return Decoded{ReadSent{detail::number(body, 8)}, size};
    case LABINTUGMO_EVENT_WRITE_BACK_SENT:
        return Decoded{WriteBackSent{detail::number(body, 8), detail::masks(body + 8)}, size};
    case LABINTUGMO_EVENT_FILLED: return Decoded{Filled{detail::number(body, 8)}, size};
    default: return Decoded{Ticked{}, size};
    }
}

// Goes from event to event; equal to the end where nothing more can be read as an event.
class EventIterator {
public:
    using iterator_category = std::input_iterator_tag;
    using value_type = Event;
    using difference_type = std::ptrdiff_t;
    using pointer = const Event*;
    using reference = const Event&;

    EventIterator() noexcept = default;
    EventIterator(const std::uint8_t* bytes, std::size_t length) noexcept
        : at_(bytes), left_(length), now_(decode(bytes, length)) {}

    reference operator*() const noexcept { return now_->event; }
    pointer operator->() const noexcept { return &now_->event; }
    EventIterator& operator++() noexcept {
        at_ += now_->size;
        left_ -= now_->size;
        now_ = decode(at_, left_);
        return *this;
    }
    EventIterator operator++(int) noexcept {
        EventIterator before = *this;
        ++*this;
        return before;
    }

    // Bytes of the log from here on; those left at the end are no whole event.
    std::size_t left() const noexcept { return left_; }

    friend bool operator==(const EventIterator& a, const EventIterator& b) noexcept {
        return a.now_.has_value() == b.now_.has_value() && (!a.now_ || a.at_ == b.at_);
    }
    friend bool operator!=(const EventIterator& a, const EventIterator& b) noexcept {
        return !(a == b);
    }

private:
    const std::uint8_t* at_ = nullptr;
    std::size_t left_ = 0;
    std::optional<Decoded> now_;
};

// A log in memory that somebody else owns, to go through event by event.
class Log {
public:
    Log(const std::uint8_t* bytes, std::size_t length) noexcept : bytes_(bytes), length_(length) {}
    explicit Log(const std::vector<std::uint8_t>& bytes) noexcept
        : Log(bytes.data(), bytes.size()) {}
    // It would be gone before it is read.
    explicit Log(const std::vector<std::uint8_t>&&) = delete;

    EventIterator begin() const noexcept { return {bytes_, length_}; }
    EventIterator end() const noexcept { return {}; }

    // Bytes up to the first that cannot be read as an event; the length if there is none.
    std::size_t whole() const noexcept {
        EventIterator at = begin();
        while (at != end()) {
            ++at;
        }
        return length_ - at.left();
    }

private:
    const std::uint8_t* bytes_;
    std::size_t length_;
};

// ---- What the calls return ----

// The records of one call, with the refusal if it was refused. It can be gone through event
// by event: `for (const Event& event : cache.send())`. One that no call made is not accepted
// and has no refusal.
class [[nodiscard]] CallResult {
public:
    bool accepted() const noexcept { return size_ != 0 && !refusal(); }
    explicit operator bool() const noexcept { return accepted(); }
    std::optional<Refusal> refusal() const noexcept {
        const auto refused = find<Refused>();
        return refused ? std::optional<Refusal>(refused->refusal) : std::nullopt;
    }

    // The bytes, as they stand in a log.
    const std::uint8_t* data() const noexcept { return bytes_.data(); }
    std::size_t size() const noexcept { return size_; }

    EventIterator begin() const noexcept { return {data(), size()}; }
    EventIterator end() const noexcept { return {}; }

    // The first event of a kind.
    template <class Kind>
    std::optional<Kind> find() const noexcept {
        for (const Event& event : *this) {
            if (const Kind* found = std::get_if<Kind>(&event)) {
                return *found;
            }
        }
        return std::nullopt;
    }

protected:
    friend class Cache;
    std::array<std::uint8_t, LABINTUGMO_ROOM> bytes_{};
    std::size_t size_ = 0;
};

struct [[nodiscard]] AccessResult : CallResult {
    std::optional<Answer> answer() const noexcept {
        const auto answered = find<Answered>();
        return answered ? std::optional<Answer>(answered->answer) : std::nullopt;
    }
    std::optional<std::uint16_t> line() const noexcept {
        const auto answered = find<Answered>();
        return answered ? std::optional<std::uint16_t>(answered->line) : std::nullopt;
    }
    std::optional<ReadQueued> read_queued() const noexcept { return find<ReadQueued>(); }
    std::optional<WriteBackQueued> write_back_queued() const noexcept {
        return find<WriteBackQueued>();
    }
};

// An accepted send has one of the two.
struct [[nodiscard]] SendResult : CallResult {
    std::optional<ReadSent> read() const noexcept { return find<ReadSent>(); }
    std::optional<WriteBackSent> write_back() const noexcept { return find<WriteBackSent>(); }
};

struct [[nodiscard]] FillResult : CallResult {
    // In order of arrival.
    std::vector<std::uint32_t> tickets() const {
        std::vector<std::uint32_t> tickets;
        for (const Event& event : *this) {
            if (const Released* released = std::get_if<Released>(&event)) {
                tickets.push_back(released->ticket);
            }
        }
        return tickets;
    }
};

using TickResult = CallResult;

// The events of all rounds, without the refusals of offers; a last refusal stands at the end.
class [[nodiscard]] WaitResult {
public:
    bool accepted() const noexcept { return round_ != 0; }
    explicit operator bool() const noexcept { return accepted(); }
    // The accepting round, from 1.
    std::optional<std::uint64_t> round() const noexcept {
        return accepted() ? std::optional<std::uint64_t>(round_) : std::nullopt;
    }
    std::optional<Refusal> refusal() const noexcept {
        if (accepted() || bytes_.size() < 2) {
            return std::nullopt;
        }
        return static_cast<Refusal>(bytes_.back());
    }
    const std::uint8_t* data() const noexcept { return bytes_.data(); }
    std::size_t size() const noexcept { return bytes_.size(); }
    EventIterator begin() const noexcept { return {data(), size()}; }
    EventIterator end() const noexcept { return {}; }

private:
    friend class Cache;
    std::vector<std::uint8_t> bytes_;
    std::uint64_t round_ = 0;
};

// One that no run made has stopped before its settings.
struct [[nodiscard]] RunResult {
    Stop stop = Stop::settings_place;
    std::uint64_t consumed = 0;
    std::uint64_t written = 0;
};

// ---- Accesses and command streams ----

struct Access {
    bool is_write;
    std::uint64_t address;
    std::uint32_t mask;    // 0 for a read
    std::uint32_t ticket;  // ignored for a write

    static Access read(std::uint64_t address, std::uint32_t ticket) noexcept {
        return {false, address, 0, ticket};
    }
    static Access write(std::uint64_t address, std::uint32_t mask) noexcept {
        return {true, address, mask, 0};
    }
};

// Command records in order, for a run that repeats the calls made beside them.
class Commands {
public:
    // With a rule byte where the rule is not 0. False, and nothing is added, if a number does
    // not fit its field; those in range do.
    bool settings(const Settings& s) {
        const std::uint32_t most = 0xFF;
        const auto rule = static_cast<std::uint32_t>(s.rule);
        if (s.sets > 0xFFFF || s.ways > most || s.dirty > most || s.misses > most ||
            s.readers > most || s.queue > most || rule > most) {
            return false;
        }
        const bool ruled = s.rule != Rule::lru;
        bytes_.push_back(ruled ? LABINTUGMO_COMMAND_RULED : LABINTUGMO_COMMAND_SETTINGS);
        put(s.sets, 2);
        for (const std::uint32_t number : {s.ways, s.dirty, s.misses, s.readers, s.queue}) {
            put(number, 1);
        }
        if (ruled) {
            put(rule, 1);
        }
        return true;
    }
    void read(std::uint64_t address, std::uint32_t ticket) {
        bytes_.push_back(LABINTUGMO_COMMAND_READ);
        put(address, 8);
        put(ticket, 4);
    }
    void write(std::uint64_t address, std::uint32_t mask) {
        bytes_.push_back(LABINTUGMO_COMMAND_WRITE);
        put(address, 8);
        put(mask, 4);
    }
    void send() { bytes_.push_back(LABINTUGMO_COMMAND_SEND); }
    void fill(std::uint64_t address) {
        bytes_.push_back(LABINTUGMO_COMMAND_FILL);
        put(address, 8);
    }
    void tick(std::uint32_t cycle) {
        bytes_.push_back(LABINTUGMO_COMMAND_TICK);
        put(cycle, 4);
    }

    const std::vector<std::uint8_t>& bytes() const noexcept { return bytes_; }

private:
    void put(std::uint64_t number, std::size_t bytes) {
        for (std::size_t i = 0; i < bytes; ++i) {
            bytes_.push_back(static_cast<std::uint8_t>(number >> 8 * i));
        }
    }

    std::vector<std::uint8_t> bytes_;
};

// ---- The cache ----

namespace detail {

// The functions by which a Cache steps, named here and nowhere else: they check no tables, so
// they stand behind the class, whose tables are sound.
namespace steps {
inline constexpr auto read = labintugmo_step_read;
inline constexpr auto write = labintugmo_step_write;
inline constexpr auto send = labintugmo_step_send;
inline constexpr auto fill = labintugmo_step_fill;
inline constexpr auto tick = labintugmo_step_tick;
}  // namespace steps

// A call on settings and tables, const or not.
template <class Function, class Lent, class... Arguments>
auto lend(Function function, const Settings& s, Lent& tables, Arguments... arguments) {
    const Settings::Numbers settings = s.numbers();
    return function(settings.data(), settings.size(), tables.longs.data(), tables.longs.size(),
                    tables.words.data(), tables.words.size(), tables.marks.data(),
                    tables.marks.size(), arguments...);
}

}  // namespace detail

// One cache with its tables. They are sound at all times: made fresh, or checked once when
// they come from elsewhere, and written by nobody else; so its calls are refused with 4 to 12
// only. A cache that was moved from or released is empty: it has no settings and no tables,
// nothing is queued or missed, its cycle is 0, and every call on it is refused with 1.
class Cache {
public:
    // A fresh cache; none if a setting is out of range.
    [[nodiscard]] static std::optional<Cache> make(const Settings& settings) {
        Cache cache(settings, Tables::zero(settings));
        if (cache.reset()) {
            return std::nullopt;
        }
        return cache;
    }

    // A cache with tables that come from elsewhere, checked once. It has a copy of its own, so
    // that nothing which still points into the vectors reaches it. None if they are refused;
    // `why`, if given, then has 1, 2 or 3.
    [[nodiscard]] static std::optional<Cache> adopt(const Settings& settings,
                                                    const Tables& tables,
                                                    Refusal* why = nullptr) {
        Cache cache(settings, tables);
        if (const auto refused = cache.check()) {
            if (why != nullptr) {
                *why = *refused;
            }
            return std::nullopt;
        }
        return cache;
    }

    Cache(const Cache&) = default;
    Cache(Cache&& other) noexcept
        : settings_(std::exchange(other.settings_, Settings{})),
          tables_(std::exchange(other.tables_, Tables{})) {}
    // Settings and tables change together or not at all.
    Cache& operator=(const Cache& other) {
        Cache copy(other);
        return *this = std::move(copy);
    }
    Cache& operator=(Cache&& other) noexcept {
        settings_ = std::exchange(other.settings_, Settings{});
        tables_ = std::exchange(other.tables_, Tables{});
        return *this;
    }
    ~Cache() = default;

    bool empty() const noexcept { return tables_.longs.empty(); }
    const Settings& settings() const noexcept { return settings_; }
    const Tables& tables() const noexcept { return tables_; }
    Layout layout() const noexcept { return Layout(settings_); }

    std::uint32_t cycle() const noexcept { return empty() ? 0 : tables_.words[0]; }
    // Queue places in use.
    std::size_t queued() const noexcept {
        return used(layout().queue_kind(0), settings_.queue);
    }
    // Miss entries in use, sent or not.
    std::size_t misses() const noexcept {
        return used(layout().ticket_count(0), settings_.misses);
    }

    // Makes the tables fresh.
    [[nodiscard]] std::optional<Refusal> reset() {
        return refusal(detail::lend(labintugmo_fresh, settings_, tables_));
    }

    // Takes tables that were kept from a cache of these settings; refuses them (2 or 3) and
    // stays as it is if they are not sound.
    [[nodiscard]] std::optional<Refusal> restore(const Tables& tables) {
        Refusal why{};
        auto other = adopt(settings_, tables, &why);
        if (!other) {
            return why;
        }
        *this = std::move(*other);
        return std::nullopt;
    }

    // Gives the tables away and leaves the cache empty.
    [[nodiscard]] Tables release() noexcept {
        settings_ = Settings{};
        return std::exchange(tables_, Tables{});
    }

    // The check of the whole tables; it refuses nothing unless memory was overwritten.
    [[nodiscard]] std::optional<Refusal> check() const {
        return refusal(detail::lend(labintugmo_check, settings_, tables_));
    }

    AccessResult read(std::uint64_t address, std::uint32_t ticket) {
        return call<AccessResult>(detail::steps::read, address, ticket);
    }
    AccessResult write(std::uint64_t address, std::uint32_t mask) {
        return call<AccessResult>(detail::steps::write, address, mask);
    }
    AccessResult access(const Access& a) {
        if (a.is_write) {
            return write(a.address, a.mask);
        }
        if (a.mask == 0) {
            return read(a.address, a.ticket);
        }
        // Not well formed, which the library says.
        return call<AccessResult>(labintugmo_access, std::uint32_t{0}, a.address, a.mask,
                                  a.ticket);
    }
    SendResult send() { return call<SendResult>(detail::steps::send); }
    FillResult fill(std::uint64_t address) {
        return call<FillResult>(detail::steps::fill, address);
    }
    TickResult tick(std::uint32_t cycle) {
        return call<TickResult>(detail::steps::tick, cycle);
    }

    // Offers the access until it is accepted, sending and filling in between, with a memory
    // that answers at once; or until it is known to be held.
    WaitResult wait(const Access& a) {
        std::array<std::uint8_t, LABINTUGMO_WAIT_ROOM> events;
        WaitResult result;
        const std::uint32_t is_write = a.is_write ? 1 : 0;
        const std::size_t written =
            detail::lend(labintugmo_wait, settings_, tables_, is_write, a.address, a.mask,
                         a.ticket, events.data(), events.size(), &result.round_, std::size_t{1});
        result.bytes_.assign(events.data(), events.data() + written);
        return result;
    }

    // Runs a command stream on this cache's tables, which must have the lengths that the
    // stream's settings ask for (else stop 2). Once its settings record is accepted the cache
    // has those settings.
    RunResult run(const std::uint8_t* stream, std::size_t length, std::uint8_t* events,
                  std::size_t room) {
        std::array<std::uint64_t, 2> counts{};
        const std::optional<Settings> asked = detail::settings_in(stream, length);
        const std::uint32_t stop = labintugmo_run(
            stream, length, events, room, tables_.longs.data(), tables_.longs.size(),
            tables_.words.data(), tables_.words.size(), tables_.marks.data(),
            tables_.marks.size(), counts.data(), counts.size());
        if (asked && counts[0] > 0) {
            settings_ = *asked;
        }
        return {static_cast<Stop>(stop), counts[0], counts[1]};
    }

    // Goes on with the next part of a stream, on this cache's settings and tables, which are
    // checked once; a settings record stops it (13). Cut between any two records, the parts
    // give the events and the tables of one run.
    RunResult resume(const std::uint8_t* part, std::size_t length, std::uint8_t* events,
                     std::size_t room) {
        std::array<std::uint64_t, 2> counts{};
        const Settings::Numbers settings = settings_.numbers();
        const std::uint32_t stop = labintugmo_resume(
            settings.data(), settings.size(), part, length, events, room, tables_.longs.data(),
            tables_.longs.size(), tables_.words.data(), tables_.words.size(),
            tables_.marks.data(), tables_.marks.size(), counts.data(), counts.size());
        return {static_cast<Stop>(stop), counts[0], counts[1]};
    }

private:
    Cache(const Settings& settings, Tables tables)
        : settings_(settings), tables_(std::move(tables)) {}

    static std::optional<Refusal> refusal(std::uint32_t number) noexcept {
        return number == 0 ? std::nullopt
                           : std::optional<Refusal>(static_cast<Refusal>(number));
    }

    // Used places stand first.
    std::size_t used(std::size_t first, std::size_t most) const noexcept {
        std::size_t count = 0;
        while (count < most && tables_.marks[first + count] != 0) {
            ++count;
        }
        return count;
    }

    // A step on sound tables; an empty cache has none.
    template <class Result, class Function, class... Arguments>
    Result call(Function function, Arguments... arguments) {
        Result result;
        if (empty()) {
            result.bytes_[0] = LABINTUGMO_EVENT_REFUSED;
            result.bytes_[1] = LABINTUGMO_BAD_SETTINGS;
            result.size_ = 2;
        } else {
            result.size_ = detail::lend(function, settings_, tables_, arguments...,
                                        result.bytes_.data(), result.bytes_.size());
        }
        return result;
    }

    Settings settings_;
    Tables tables_;
};

// ---- Whole runs ----

// Event room with which a run of the stream does not stop for want of it.
inline std::size_t event_room(const std::uint8_t* stream, std::size_t length) noexcept {
    // The most that a command of each kind 0 to 6 writes; a fill releases at most 8 tickets.
    constexpr std::array<std::size_t, 7> most{0, 38, 29, 25, 49, 2, 0};
    std::size_t room = LABINTUGMO_ROOM;
    std::size_t at = 0;
    while (at < length && stream[at] < most.size()) {
        room += most[stream[at]];
        at += 1 + detail::command_lengths[stream[at]];
    }
    return room;
}

// A run with everything it made: how it stopped, the log, and the cache as the stream left
// it (none if the stream does not start with good settings).
struct [[nodiscard]] Run {
    RunResult result;
    std::vector<std::uint8_t> log;
    std::optional<Cache> cache;
};

// Runs a stream from its own settings record on tables made for it.
inline Run run(const std::uint8_t* stream, std::size_t length) {
    Run run{{}, std::vector<std::uint8_t>(event_room(stream, length)), std::nullopt};
    if (const auto asked = detail::settings_in(stream, length)) {
        run.cache = Cache::make(*asked);
    }
    if (run.cache) {
        run.result = run.cache->run(stream, length, run.log.data(), run.log.size());
    } else {
        std::array<std::uint64_t, 2> counts{};
        const std::uint32_t stop =
            labintugmo_run(stream, length, run.log.data(), run.log.size(), nullptr, 0, nullptr,
                           0, nullptr, 0, counts.data(), counts.size());
        run.result = {static_cast<Stop>(stop), counts[0], counts[1]};
    }
    run.log.resize(static_cast<std::size_t>(run.result.written));
    return run;
}

inline Run run(const std::vector<std::uint8_t>& stream) {
    return run(stream.data(), stream.size());
}

}  // namespace labintugmo

#endif
