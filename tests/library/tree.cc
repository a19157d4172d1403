// A root, an inner node and a leaf over lines that deliver each message at once, in C++: what is
// published arrives in order, each item once, though each frame is delivered twice. And a child at
// an item that its node's buffer keeps no more holds no other one up.
#include <rignolda.h>

#include <cstdio>
#include <vector>

namespace {

struct Node {
    rignolda_node it;
    rignolda_child child;
    std::vector<uint32_t> list = std::vector<uint32_t>(8);

    Node(uint16_t label, uint16_t child_label) {
        rignolda_node_init(&it, label, 0);
        rignolda_child_init(&child, child_label);
    }
};

const rignolda_params params = {1, 4};

// Hands all that one node has to the one beneath it.
void hand_on(Node &from, Node &to) {
    rignolda_frame frame;
    uint16_t label;
    while (rignolda_node_poll(&from.it, &from.child, from.list.data(), from.list.size(), &frame)) {
        rignolda_node_on_frame(&to.it, to.list.data(), to.list.size(), &frame);
        rignolda_node_on_frame(&to.it, to.list.data(), to.list.size(), &frame);
        if (!rignolda_receiver_ack(&to.it.above, &label)) return;
        rignolda_child_on_ack(&from.child, &params, label);
    }
}

// The node's list began with four items, and its buffer has two: one child is at the first of these,
// the other one at the end.
bool siblings_go_on() {
    rignolda_node node;
    rignolda_child lost, other;
    uint32_t list[2] = {3, 4};
    rignolda_node_init(&node, 65535, 4);
    rignolda_child_init(&lost, 0);
    if (!rignolda_child_init_at(&other, &node, 2, 0, node.length)) return false;
    uint64_t place = node.length;
    for (const rignolda_child *child : {&lost, &other})
        if (!rignolda_node_left_behind(&node, child, 2))
            place = rignolda_child_needs(&node, child, place);
    rignolda_node_forget(&node, place);
    rignolda_frame frame = {9, 1, 0};
    return rignolda_node_on_frame(&node, list, 2, &frame)
        && rignolda_node_poll(&node, &other, list, 2, &frame) && frame.item == 9;
}

}  // namespace

int main() {
    Node root(0, 0), inner(65535, 2), leaf(65535, 0);
    if (rignolda_params_check(&params) != 0 || !siblings_go_on()) return 1;
    for (uint32_t item = 7; item < 10; item++) {
        if (!rignolda_node_publish(&root.it, root.list.data(), root.list.size(), item)) return 1;
        hand_on(root, inner);
        hand_on(inner, leaf);
    }
    for (uint32_t place = 0; place < leaf.it.length; place++) {
        std::printf("%u\n", static_cast<unsigned>(leaf.list[place]));
    }
}
