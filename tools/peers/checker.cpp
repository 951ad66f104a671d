// Judges a claim of version 1 or 2: reads a record and a claim and answers as `tsumego check` does. Lines are read one by one and not
// kept. Colourings have numbers; which of them are known, and which are on the list of the lemma that is read, are marks by number.
#include "go.hpp"
#include <pthread.h>

struct Lemma {
    uint32_t root;
    char mover;
    int passes;
    std::vector<uint32_t> had, barred;
};

struct Checker {
    Problem &problem;
    const char *at, *end;
    uint64_t line = 0;
    std::vector<std::string_view> words;
    History &colourings;
    std::vector<uint8_t> known;
    std::vector<uint32_t> owner; // the lemma, from 1, on whose list a colouring was last
    std::vector<Lemma> lemmas;
    uint32_t own = 0; // the lemma that is read; 0 in main
    char winner = 0;

    [[noreturn]] void reject(const char *why) {
        printf("rejected line %llu: %s\n", (unsigned long long)line, why);
        exit(1);
    }
    void take() { // the next line, in words
        line++;
        words.clear();
        const char *stop = (const char *)memchr(at, '\n', end - at);
        if (!stop) reject("C01 malformed");
        for (const char *word = at; word <= stop;) {
            const char *space = (const char *)memchr(word, ' ', stop - word);
            if (!space) space = stop;
            words.emplace_back(word, space - word);
            word = space + 1;
        }
        at = stop + 1;
    }
    uint32_t number(std::string_view word) {
        uint32_t value = 0;
        for (char c : word) {
            if (!isdigit((unsigned char)c)) reject("C01 malformed");
            value = value * 10 + c - '0';
        }
        return value;
    }
    int vertex(std::string_view word) {
        if (word == "pass") return PASS;
        int x = word[0] - 'a', y = word.size() == 2 ? word[1] - 'a' : -1;
        if (x < 0 || y < 0 || x >= problem.board.rows || y >= problem.board.rows) reject("C01 malformed");
        return y * problem.board.rows + x;
    }
    uint32_t colouring(std::string_view word) {
        if ((int)word.size() != problem.board.points) reject("C01 malformed");
        return numbered(word.data());
    }
    uint32_t numbered(const char *cells) {
        uint32_t found = colourings.number_of(cells);
        if (found >= known.size()) {
            known.resize(found + 1);
            owner.resize(found + 1);
        }
        return found;
    }

    void node(uint32_t state, char mover, int passes, int depth) {
        if (depth > 2000) reject("C15 limit");
        std::string_view kind = words[0];
        char won = problem.winner(colourings.at(state), passes);
        if (kind == "won") {
            if (won != winner) reject("C04 not won");
        } else if (kind == "use") {
            use(number(words.at(1)), state, mover, passes);
        } else if (kind == "play") {
            if (won || mover != winner) reject("C05 wrong side or after the end");
            play(vertex(words.at(1)), state, mover, passes, depth);
        } else if (kind == "all") {
            if (won || mover == winner) reject("C05 wrong side or after the end");
            all(number(words.at(1)), state, mover, passes, depth);
        } else reject("C01 malformed");
    }
    void use(uint32_t named, uint32_t state, char mover, int passes) {
        if (named == 0 || named > lemmas.size()) reject("C10 lemma number not lower");
        const Lemma &lemma = lemmas[named - 1];
        if (lemma.root != state || lemma.mover != mover || lemma.passes != passes) reject("C11 state differs");
        for (uint32_t one : lemma.had) if (!known[one]) reject("C19 needed position has not occurred");
        for (uint32_t one : lemma.barred) if (known[one]) reject("C12 listed position has occurred");
        for (uint32_t one : lemma.barred) if (own && owner[one] != own) reject("C13 listed position not passed on");
    }
    uint32_t after(uint32_t state, char mover, int point) {
        char cells[MOST_POINTS];
        memcpy(cells, colourings.at(state), problem.board.points);
        problem.board.play(cells, mover, point);
        return numbered(cells);
    }
    void below(uint32_t state, char mover, int depth) {
        known[state] = 1;
        take();
        node(state, mover, 0, depth);
        known[state] = 0;
    }
    void play(int turn, uint32_t state, char mover, int passes, int depth) {
        if (turn == PASS) {
            take();
            return node(state, other(mover), passes + 1, depth + 1);
        }
        if (!problem.in_region[turn] || colourings.at(state)[turn] != EMPTY) reject("C06 turn barred");
        uint32_t next = after(state, mover, turn);
        if (known[next]) reject("C07 repeats a known position");
        if (own && owner[next] != own) reject("C08 result not listed");
        below(next, other(mover), depth + 1);
    }
    void all(uint32_t count, uint32_t state, char mover, int passes, int depth) {
        std::vector<std::pair<int, uint32_t>> due;
        for (int point : problem.region)
            if (colourings.at(state)[point] == EMPTY) {
                uint32_t next = after(state, mover, point);
                if (!known[next]) due.push_back({point, next});
            }
        if (count != due.size() + 1) reject("C09 replies differ, due pass");
        for (auto [point, next] : due) {
            reply(point);
            below(next, other(mover), depth + 1);
        }
        reply(PASS);
        take();
        node(state, other(mover), passes + 1, depth + 1);
    }
    void reply(int turn) {
        take();
        if (words[0] != "reply") reject("C01 malformed");
        if (vertex(words.at(1)) != turn) reject("C09 replies differ");
    }

    void lemma() {
        Lemma one{colouring(words.at(3)), words[1] == "B" ? BLACK : WHITE, int(number(words[2])), {}, {}};
        for (int p = 0; p < problem.board.points; p++)
            if (colourings.at(one.root)[p] != EMPTY && problem.board.dead_chain(colourings.at(one.root), p)) reject("C03 root without liberty");
        own = lemmas.size() + 1;
        for (take(); words[0] == "had"; take()) one.had.push_back(listed(one.had));
        for (; words[0] == "not"; take()) {
            one.barred.push_back(listed(one.barred));
            owner[one.barred.back()] = own;
        }
        for (uint32_t had : one.had) known[had] = 1;
        known[one.root] = 1;
        node(one.root, one.mover, one.passes, 1);
        known[one.root] = 0;
        for (uint32_t had : one.had) known[had] = 0;
        take();
        if (words[0] != "end") reject("C01 malformed");
        lemmas.push_back(one);
    }
    uint32_t listed(const std::vector<uint32_t> &before) {
        uint32_t found = colouring(words.at(1));
        if (!before.empty() && memcmp(colourings.at(before.back()), words[1].data(), problem.board.points) >= 0) reject("C14 list order");
        return found;
    }
    void judge() {
        uint32_t past = colourings.size(), now = numbered(problem.cells);
        take();
        if (words[0] != "tsucert") reject("C01 malformed");
        if ((int)number(words.at(2)) != problem.board.rows) reject("C02 size differs");
        winner = words.at(3) == "B" ? BLACK : WHITE;
        for (take(); words[0] == "lemma"; take()) lemma();
        if (words[0] != "main") reject("C01 malformed");
        own = 0;
        for (uint32_t number = 0; number < past; number++) known[number] = 1;
        take();
        node(now, problem.mover, problem.passes, 1);
        take();
        if (words[0] != "end") reject("C01 malformed");
        line++;
        if (at < end) reject("C16 text after the end");
    }
};

static void *work(void *) {
    Problem problem(whole_input());
    const std::string &text = problem.sgf.text;
    const char *begin = text.data() + problem.sgf.end;
    while (begin < text.data() + text.size() && isspace((unsigned char)*begin)) begin++;
    Checker checker{problem, begin, text.data() + text.size(), 0, {}, problem.history, {}, {}, {}, 0, 0};
    checker.judge();
    puts(checker.winner == BLACK ? "wins Black" : "wins White");
    fflush(stdout);
    _exit(0);
}

// A claim may be 2,000 nodes deep.
int main() {
    pthread_attr_t room;
    pthread_attr_init(&room);
    pthread_attr_setstacksize(&room, 64 << 20);
    pthread_t thread;
    if (pthread_create(&thread, &room, work, nullptr)) return 4;
    pthread_join(thread, nullptr);
}
