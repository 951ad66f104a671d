// Who wins by the tree below the problem node of a record: reads it and answers as `tsumego audit` does, but names no fault.
#include "go.hpp"

[[noreturn]] static void reject(int node) {
    printf("rejected node %d\n", node);
    exit(1);
}

struct Audit {
    Problem &problem;
    char winner = 0;

    // The turn of a node, if the mover has one there.
    int turn_at(int node, char mover) {
        std::string_view name = mover == BLACK ? "B" : "W";
        if (!problem.sgf.find(node, name)) reject(node);
        return problem.turn_of(problem.sgf.first(node, name));
    }

    // Who has won at the end of the first line.
    char first_end() {
        char cells[MOST_POINTS], mover = problem.mover;
        int passes = problem.passes;
        memcpy(cells, problem.cells, problem.board.points);
        for (int node = problem.sgf.nodes[problem.node].child; node >= 0; node = problem.sgf.nodes[node].child) {
            int turn = turn_at(node, mover);
            if (turn == PASS) passes++;
            else { problem.board.play(cells, mover, turn); passes = 0; }
            mover = other(mover);
        }
        char won = problem.winner(cells, passes);
        if (!won) reject(problem.node);
        return won;
    }

    void judge(int node, const char *cells, char mover, int passes) {
        char won = problem.winner(cells, passes);
        int child = problem.sgf.nodes[node].child;
        if (won ? won != winner || child >= 0 : child < 0) reject(node);
        if (won) return;
        if (mover == winner && problem.sgf.nodes[child].next >= 0) reject(node);
        bool shown[MOST_POINTS + 1] = {};
        for (; child >= 0; child = problem.sgf.nodes[child].next) {
            int turn = turn_at(child, mover);
            if (shown[turn + 1]) reject(child);
            shown[turn + 1] = true;
            go_on(child, turn, cells, mover, passes);
        }
        if (mover != winner) ask_all(node, shown, cells, mover);
    }

    // The state after a turn, and what follows it.
    void go_on(int child, int turn, const char *cells, char mover, int passes) {
        if (turn == PASS) return judge(child, cells, other(mover), passes + 1);
        if (!problem.in_region[turn] || cells[turn] != EMPTY) reject(child);
        char after[MOST_POINTS];
        memcpy(after, cells, problem.board.points);
        problem.board.play(after, mover, turn);
        if (!problem.history.add(after)) reject(child);
        judge(child, after, other(mover), 0);
        problem.history.take_last();
    }

    // Every legal reply has to be shown.
    void ask_all(int node, const bool *shown, const char *cells, char mover) {
        if (!shown[0]) reject(node);
        char after[MOST_POINTS];
        for (int point : problem.region) {
            if (cells[point] != EMPTY || shown[point + 1]) continue;
            memcpy(after, cells, problem.board.points);
            problem.board.play(after, mover, point);
            if (!problem.history.has(after)) reject(node);
        }
    }
};

int main() {
    Problem problem(whole_input());
    Audit audit{problem};
    audit.winner = audit.first_end();
    audit.judge(problem.node, problem.cells, problem.mover, problem.passes);
    puts(audit.winner == BLACK ? "wins Black" : "wins White");
}
