// Who wins within K turns, by all legal play: `within K NODES` reads a record and answers as `tsumego within` does.
#include "go.hpp"

struct Search {
    Problem &problem;
    uint64_t left;

    // The side that wins within so many turns, or 0. Every state of the tree of all play is counted.
    char decide(const char *cells, char mover, int passes, int turns) {
        if (left-- == 0) {
            puts("limit");
            exit(1);
        }
        char won = problem.winner(cells, passes);
        if (won || turns == 0) return won;
        bool mover_wins = false, other_wins = true;
        char after[MOST_POINTS];
        for (int point : problem.region) {
            if (cells[point] != EMPTY) continue;
            memcpy(after, cells, problem.board.points);
            problem.board.play(after, mover, point);
            if (!problem.history.add(after)) continue;
            char side = decide(after, other(mover), 0, turns - 1);
            problem.history.take_last();
            mover_wins |= side == mover;
            other_wins &= side == other(mover);
        }
        char side = decide(cells, other(mover), passes + 1, turns - 1);
        mover_wins |= side == mover;
        other_wins &= side == other(mover);
        return mover_wins ? mover : other_wins ? other(mover) : 0;
    }
};

int main(int count, char **words) {
    if (count != 3) return 3;
    Problem problem(whole_input());
    Search search{problem, strtoull(words[2], nullptr, 10)};
    char won = search.decide(problem.cells, problem.mover, problem.passes, atoi(words[1]));
    puts(won == BLACK ? "wins Black" : won == WHITE ? "wins White" : "neither");
}
