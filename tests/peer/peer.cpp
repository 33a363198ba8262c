// A peer to measure against: a temporal network kept by hand in C++, behind the language of docs/SCRIPTS.md, with nothing proved.
//
// It is a delta-STN. Each point has a list of its neighbours, the newest first, and the time of each point is always the earliest. A bound that is
// violated is spread by incremental Bellman-Ford: the points whose time rose wait in a queue, each at most once, and raise their neighbours in turn, until
// nothing waits, or until point 0 or the posted bound itself would rise again, and then the times before it are put back.
//
// It reads scripts that begin with a good `T` or `R` line and have only `P`, `Q` and `W` lines after it, at most 1,024 in all.
#include <algorithm>
#include <array>
#include <charconv>
#include <cstdint>
#include <cstdio>
#include <cstring>
#include <string>
#include <vector>

using Number = int64_t;

constexpr Number GREATEST_POINT = 4095;
constexpr Number GREATEST_PART = 500'000'000;
constexpr int PLACES = 1024;

struct Ticks {
    Number t;

    static bool read(Number t, Number s, Ticks &delay) {
        delay = {t};
        return s == 0;
    }
    Ticks operator+(Ticks other) const { return {t + other.t}; }
    bool operator<(Ticks other) const { return t < other.t; }
    bool operator==(Ticks other) const { return t == other.t; }
    Number step() const { return 0; }
};

struct Ranked {
    Number t, s;

    static bool read(Number t, Number s, Ranked &delay) {
        delay = {t, s};
        return true;
    }
    Ranked operator+(Ranked other) const { return {t + other.t, s + other.s}; }
    bool operator<(Ranked other) const { return t < other.t || (t == other.t && s < other.s); }
    bool operator==(Ranked other) const { return t == other.t && s == other.s; }
    Number step() const { return s; }
};

// What a post answers: moved so many points, covered, in conflict, or no place left.
enum class Answer { Moved, Covered, Conflict, Full };

// The least distance of each point from point 0, which is the opposite of its earliest time.
template <class Delay> class Network {
    struct Neighbour {
        int point;
        Delay delay;
    };

    int points;
    std::vector<std::vector<Neighbour>> neighbours;
    std::vector<Delay> before;
    std::vector<int> queue;
    std::vector<char> waits;
    int places = PLACES;

    // Whether all that follows from a bound that has just lowered its right point comes to rest.
    bool spread(int left, int right) {
        if (left == right || right == 0) return false;
        std::fill(waits.begin(), waits.end(), 0);
        queue.assign(1, right);
        for (size_t head = 0; head < queue.size(); head++) {
            int from = queue[head];
            Delay reached = distances[from];
            waits[from] = 0;
            for (auto next = neighbours[from].rbegin(); next != neighbours[from].rend(); ++next) {
                int to = next->point;
                Delay distance = reached + next->delay;
                if (!(distance < distances[to])) continue;
                if (to == 0 || (from == left && to == right)) return false;
                distances[to] = distance;
                if (!waits[to]) {
                    waits[to] = 1;
                    queue.push_back(to);
                }
            }
        }
        return true;
    }

    void take_back(int left) {
        distances = before;
        neighbours[left].pop_back();
    }

  public:
    std::vector<Delay> distances;

    explicit Network(int points) : points(points), neighbours(points), before(points, Delay{}), waits(points, 0), distances(points, Delay{}) {
        queue.reserve(4096);
    }

    bool covers(int left, int right, Delay delay) const {
        const auto &list = neighbours[left];
        for (auto next = list.rbegin(); next != list.rend(); ++next)
            if (next->point == right && !(delay < next->delay)) return true;
        return false;
    }

    Answer post(int left, int right, Delay delay, bool keeps, int &moved) {
        moved = 0;
        if (covers(left, right, delay)) return Answer::Covered;
        Delay distance = distances[left] + delay;
        bool moves = distance < distances[right];
        if (!moves && places == 0) return Answer::Full;
        if (!moves && !keeps) return Answer::Moved;
        neighbours[left].push_back({right, delay});
        if (moves) {
            before = distances;
            distances[right] = distance;
            if (!spread(left, right)) {
                take_back(left);
                return Answer::Conflict;
            }
            for (int point = 0; point < points; point++) moved += !(distances[point] == before[point]);
            if (!keeps || places == 0) {
                take_back(left);
                return places == 0 ? Answer::Full : Answer::Moved;
            }
        }
        places--;
        return Answer::Moved;
    }
};

// The listing that comes to be, and the number of the line that is answered.
struct Listing {
    std::string text;
    int line = 1;

    void number(Number value) {
        char digits[24];
        auto end = std::to_chars(digits, digits + sizeof digits, value).ptr;
        text.append(digits, end - digits);
    }

    // The line's number and the letter of an answer.
    void begin(char letter) {
        number(line);
        text += ' ';
        text += letter;
    }

    void follow(Number value) {
        text += ' ';
        number(value);
    }

    void end() { text += '\n'; }

    void fault(int fault, char layer, int place) {
        begin('E');
        follow(fault);
        text += ' ';
        text += layer;
        follow(place);
        end();
    }
};

template <class Delay> void answer_read(const Network<Delay> &network, Number point, Listing &listing) {
    if (point < 0 || point > GREATEST_POINT) return listing.fault(7, 'D', 1);
    if (point >= Number(network.distances.size())) return listing.fault(5, 'P', 1);
    Delay distance = network.distances[point];
    listing.begin('W');
    listing.follow(point);
    listing.follow(-distance.t);
    listing.follow(-distance.step());
    listing.follow((5 - distance.t) / 10);
    listing.end();
}

template <class Delay> void answer_post(Network<Delay> &network, const Number *numbers, bool keeps, Listing &listing) {
    for (int i = 0; i < 4; i++) {
        bool fits = i < 2 ? 0 <= numbers[i] && numbers[i] <= GREATEST_POINT : -GREATEST_PART <= numbers[i] && numbers[i] <= GREATEST_PART;
        if (!fits) return listing.fault(7, 'D', i + 1);
    }
    for (int i = 0; i < 2; i++)
        if (numbers[i] >= Number(network.distances.size())) return listing.fault(5, 'P', i + 1);
    Delay delay;
    if (!Delay::read(numbers[2], numbers[3], delay)) return listing.fault(6, 'K', 0);
    int moved;
    switch (network.post(numbers[0], numbers[1], delay, keeps, moved)) {
    case Answer::Full: return listing.fault(9, 'B', 0);
    case Answer::Covered: listing.begin('C'); break;
    case Answer::Conflict: listing.begin('X'); break;
    case Answer::Moved: listing.begin('A'); listing.follow(moved); break;
    }
    listing.end();
}

// The numbers after the letter of a line, up to five of them.
int read_numbers(const char *at, const char *end, Number *numbers) {
    int count = 0;
    while (at < end && *at == ' ' && count < 5) {
        at++;
        bool negative = at < end && *at == '-';
        if (negative) at++;
        Number value = 0;
        while (at < end && '0' <= *at && *at <= '9') value = value * 10 + (*at++ - '0');
        numbers[count++] = negative ? -value : value;
    }
    return at == end ? count : 0;
}

template <class Delay> void answer_lines(const char *at, const char *end, int points, Listing &listing) {
    Network<Delay> network(points);
    while (at < end) {
        listing.line++;
        const char *feed = static_cast<const char *>(memchr(at, '\n', end - at));
        if (!feed) feed = end;
        Number numbers[5];
        int count = read_numbers(at + 1, feed, numbers);
        if (count != (*at == 'W' ? 1 : 4)) listing.fault(12, 'L', count + 1);
        else if (*at == 'W') answer_read(network, numbers[0], listing);
        else answer_post(network, numbers, *at == 'P', listing);
        at = feed + 1;
    }
}

int main() {
    std::string script;
    std::array<char, 65536> piece;
    while (size_t length = fread(piece.data(), 1, piece.size(), stdin)) script.append(piece.data(), length);
    size_t first = script.find('\n');
    Number points = 0;
    if (first == std::string::npos || read_numbers(script.data() + 1, script.data() + first, &points) != 1) return 1;
    Listing listing;
    listing.begin('S');
    listing.follow(0);
    listing.end();
    const char *rest = script.data() + first + 1, *end = script.data() + script.size();
    if (script[0] == 'T') answer_lines<Ticks>(rest, end, points, listing);
    else answer_lines<Ranked>(rest, end, points, listing);
    fwrite(listing.text.data(), 1, listing.text.size(), stdout);
}
