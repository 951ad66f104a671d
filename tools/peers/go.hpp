// Boards, colourings that have occurred, and SGF records, as plain C++ has them.
#pragma once
#include <cctype>
#include <cstdint>
#include <cstdio>
#include <cstdlib>
#include <cstring>
#include <string>
#include <string_view>
#include <unistd.h>
#include <vector>

constexpr int MOST_POINTS = 625;
constexpr char EMPTY = '.', BLACK = 'X', WHITE = 'O';
constexpr int PASS = -1;

inline char other(char colour) { return colour == BLACK ? WHITE : BLACK; }

[[noreturn]] inline void refuse(const char *why) {
    printf("refused: %s\n", why);
    exit(2);
}

struct Board {
    int rows, points;
    int near[MOST_POINTS][5]; // the neighbours, ended by -1
    int stamp = 0, seen[MOST_POINTS] = {}, chain[MOST_POINTS];

    explicit Board(int rows) : rows(rows), points(rows * rows) {
        for (int p = 0; p < points; p++) {
            int *next = near[p], column = p % rows, row = p / rows;
            if (column > 0) *next++ = p - 1;
            if (column + 1 < rows) *next++ = p + 1;
            if (row > 0) *next++ = p - rows;
            if (row + 1 < rows) *next++ = p + rows;
            *next = -1;
        }
    }

    // How many stones the chain of this point has, which are then in `chain`; 0 where it has a liberty.
    int dead_chain(const char *cells, int start) {
        int count = 1;
        chain[0] = start;
        seen[start] = ++stamp;
        for (int i = 0; i < count; i++)
            for (const int *q = near[chain[i]]; *q >= 0; q++) {
                if (cells[*q] == EMPTY) return 0;
                if (cells[*q] == cells[start] && seen[*q] != stamp) {
                    seen[*q] = stamp;
                    chain[count++] = *q;
                }
            }
        return count;
    }

    void play(char *cells, char colour, int point) {
        cells[point] = colour;
        for (const int *q = near[point]; *q >= 0; q++)
            if (cells[*q] == other(colour)) take(cells, *q);
        take(cells, point);
    }

    void take(char *cells, int start) {
        for (int i = dead_chain(cells, start); i > 0; i--) cells[chain[i - 1]] = EMPTY;
    }
};

// The colourings that have occurred. The last one can be taken out again.
class History {
    int points;
    std::vector<char> cells;
    std::vector<uint64_t> keys;
    std::vector<uint32_t> slots = std::vector<uint32_t>(1024); // number + 1; 0 is free

    static uint64_t mixed(uint64_t key, uint64_t word) {
        key = (key ^ word) * 0xff51afd7ed558ccdull;
        return key ^ key >> 32;
    }
    uint64_t key_of(const char *one) const {
        uint64_t key = 0x9e3779b97f4a7c15ull, word = 0;
        int p = 0;
        for (; p + 8 <= points; p += 8) {
            memcpy(&word, one + p, 8);
            key = mixed(key, word);
        }
        word = 0;
        memcpy(&word, one + p, points - p);
        return mixed(key, word);
    }
    size_t slot_of(const char *one, uint64_t key) const {
        size_t slot = key & (slots.size() - 1);
        for (; slots[slot]; slot = (slot + 1) & (slots.size() - 1)) {
            size_t number = slots[slot] - 1;
            if (keys[number] == key && !memcmp(&cells[number * points], one, points)) break;
        }
        return slot;
    }
    void grow() {
        std::vector<uint32_t> wider(slots.size() * 2);
        for (size_t number = 0; number < keys.size(); number++) {
            size_t slot = keys[number] & (wider.size() - 1);
            while (wider[slot]) slot = (slot + 1) & (wider.size() - 1);
            wider[slot] = number + 1;
        }
        slots.swap(wider);
    }

  public:
    explicit History(int points) : points(points) {}
    size_t size() const { return keys.size(); }
    const char *at(uint32_t number) const { return &cells[size_t(number) * points]; }
    bool has(const char *one) const { return slots[slot_of(one, key_of(one))]; }
    uint32_t number_of(const char *one) { // it is added where it is new
        add(one);
        return slots[slot_of(one, key_of(one))] - 1;
    }
    bool add(const char *one) { // whether it is new
        uint64_t key = key_of(one);
        size_t slot = slot_of(one, key);
        if (slots[slot]) return false;
        cells.insert(cells.end(), one, one + points);
        keys.push_back(key);
        slots[slot] = keys.size();
        if (keys.size() * 2 > slots.size()) grow();
        return true;
    }
    void take_last() {
        slots[slot_of(&cells[(keys.size() - 1) * points], keys.back())] = 0;
        keys.pop_back();
        cells.resize(cells.size() - points);
    }
};

// A record: nodes, properties and values in one vector each, all of them parts of the text.
struct Sgf {
    struct Property { std::string_view name; uint32_t first_value, values; };
    struct Node { uint32_t first_property, properties; int parent, child, next, last_child; };
    std::string text;
    size_t end = 0; // where the first tree ends
    std::vector<Node> nodes;
    std::vector<Property> properties;
    std::vector<std::string_view> values;

    explicit Sgf(std::string given) : text(std::move(given)) { read(); }

    const Property *find(int node, std::string_view name) const {
        const Node &one = nodes[node];
        for (uint32_t i = 0; i < one.properties; i++)
            if (properties[one.first_property + i].name == name) return &properties[one.first_property + i];
        return nullptr;
    }
    std::string_view first(int node, std::string_view name) const {
        const Property *found = find(node, name);
        return found ? values[found->first_value] : std::string_view();
    }

  private:
    void add_node(int parent) {
        int number = nodes.size();
        nodes.push_back({uint32_t(properties.size()), 0, parent, -1, -1, -1});
        if (parent < 0) return;
        if (nodes[parent].child < 0) nodes[parent].child = number;
        else nodes[nodes[parent].last_child].next = number;
        nodes[parent].last_child = number;
    }
    size_t read_property(size_t at) {
        size_t begin = at;
        while (at < text.size() && isalpha((unsigned char)text[at])) at++;
        properties.push_back({std::string_view(text).substr(begin, at - begin), uint32_t(values.size()), 0});
        nodes.back().properties++;
        while (at < text.size() && isspace((unsigned char)text[at])) at++;
        if (at == text.size() || text[at] != '[') refuse("a property without a value");
        while (at < text.size() && text[at] == '[') {
            size_t from = ++at;
            while (at < text.size() && text[at] != ']') at += text[at] == '\\' ? 2 : 1;
            if (at >= text.size()) refuse("a value without an end");
            values.push_back(std::string_view(text).substr(from, at - from));
            properties.back().values++;
            for (at++; at < text.size() && isspace((unsigned char)text[at]);) at++;
        }
        return at;
    }
    void read() {
        size_t at = text.find("(;");
        if (at == std::string::npos) refuse("no tree");
        std::vector<int> open;
        int last = -1;
        do {
            if (at >= text.size()) refuse("a tree without an end");
            char c = text[at];
            if (isalpha((unsigned char)c)) { at = read_property(at); continue; }
            at++;
            if (c == '(') open.push_back(last);
            else if (c == ')') { last = open.back(); open.pop_back(); }
            else if (c == ';') { add_node(last); last = nodes.size() - 1; }
            else if (!isspace((unsigned char)c)) refuse("no syntax");
        } while (!open.empty());
        end = at;
    }
};

inline std::string whole_input() {
    std::string text;
    char block[1 << 16];
    for (ssize_t count; (count = read(0, block, sizeof block)) > 0;) text.append(block, count);
    return text;
}

// The problem of a record that marks its targets at the end of its main line.
struct Problem {
    Sgf sgf;
    Board board;
    History history;
    char cells[MOST_POINTS];
    std::vector<int> targets, region;
    bool in_region[MOST_POINTS] = {};
    char mover = BLACK, defender = BLACK;
    int passes = 0, node = 0; // the problem node

    explicit Problem(std::string text)
        : sgf(std::move(text)), board(rows_of(sgf)), history(board.points) {
        memset(cells, EMPTY, board.points);
        for (;; node = sgf.nodes[node].child) {
            follow(node);
            if (sgf.find(node, "TR")) break;
            if (sgf.nodes[node].child < 0) refuse("no targets");
        }
        targets = points_of(node, "TR");
        std::vector<int> squares = points_of(node, "SQ");
        for (int p : squares) in_region[p] = true;
        for (int p = 0; p < board.points; p++) {
            in_region[p] |= squares.empty();
            if (in_region[p]) region.push_back(p);
        }
        defender = cells[targets[0]];
    }
    // Who has won: a colour, or 0.
    char winner(const char *now, int passed) const {
        for (int target : targets) if (now[target] != defender) return other(defender);
        return passed >= 2 ? defender : 0;
    }
    int turn_of(std::string_view value) const {
        if (value.empty() || (value == "tt" && board.rows < 20)) return PASS;
        return (value[1] - 'a') * board.rows + value[0] - 'a';
    }

  private:
    static int rows_of(const Sgf &sgf) {
        std::string_view size = sgf.first(0, "SZ");
        return size.empty() ? 19 : atoi(std::string(size).c_str());
    }
    std::vector<int> points_of(int at, const char *name) const {
        std::vector<int> found;
        const Sgf::Property *property = sgf.find(at, name);
        for (uint32_t i = 0; property && i < property->values; i++) {
            std::string_view value = sgf.values[property->first_value + i];
            if (value.size() < 2) continue;
            char right = value.size() > 4 ? value[3] : value[0], bottom = value.size() > 4 ? value[4] : value[1];
            for (char y = value[1]; y <= bottom; y++)
                for (char x = value[0]; x <= right; x++) found.push_back((y - 'a') * board.rows + x - 'a');
        }
        return found;
    }
    void follow(int at) {
        bool is_setup = false;
        for (auto [name, cell] : {std::pair("AB", BLACK), std::pair("AW", WHITE), std::pair("AE", EMPTY)})
            for (int p : points_of(at, name)) { cells[p] = cell; is_setup = true; }
        if (is_setup) passes = 0;
        if (history.size() == 0) history.add(cells);
        for (char name : {'B', 'W'})
            if (sgf.find(at, std::string_view(&name, 1))) {
                char colour = name == 'B' ? BLACK : WHITE;
                int turn = turn_of(sgf.first(at, std::string_view(&name, 1)));
                if (turn == PASS) passes++;
                else { board.play(cells, colour, turn); passes = 0; }
                mover = other(colour);
            }
        history.add(cells);
        std::string_view player = sgf.first(at, "PL");
        if (!player.empty()) mover = toupper(player[0]) == 'B' ? BLACK : WHITE;
    }
};
