// Reads a record, and says how many nodes, properties and values it has.
#include "go.hpp"

int main() {
    Sgf sgf(whole_input());
    printf("%zu nodes, %zu properties, %zu values\n", sgf.nodes.size(), sgf.properties.size(), sgf.values.size());
}
