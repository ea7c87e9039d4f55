/* The functions of libstdc++ behind std::map, std::set and their kin: red-black trees. These are functions of our own in the place of
   the library's, of the same results, so what they read and write is told field by field, exactly. See libc.h. */
#include "libc.h"

enum color { RED, BLACK };
/* The layout of std::_Rb_tree_node_base. The header's parent is the root, its left the first node, its right the last; it is red. */
struct node {
  enum color color;
  struct node *parent, *left, *right;
};

#define GET(node, field) (tell(&(node)->field, sizeof (node)->field, ACCESS_READ, place), (node)->field)
#define SET(node, field, value) (tell(&(node)->field, sizeof (node)->field, ACCESS_WRITE, place), (node)->field = (value))

/* ---- the next node and the one before ---- */

static struct node *next_node(struct node *at, uintptr_t place) {
  struct node *right = GET(at, right);
  if (right) {
    for (struct node *left; (left = GET(right, left)); right = left) {}
    return right;
  }
  struct node *above = GET(at, parent);
  while (at == GET(above, right)) {
    at = above;
    above = GET(above, parent);
  }
  return GET(at, right) == above ? at : above;   /* the root alone, whose header is to its right */
}
static struct node *node_before(struct node *at, uintptr_t place) {
  struct node *above = GET(at, parent);
  if (GET(at, color) == RED && GET(above, parent) == at) return GET(at, right);      /* from the header to the last */
  struct node *left = GET(at, left);
  if (left) {
    for (struct node *right; (right = GET(left, right)); left = right) {}
    return left;
  }
  while (at == GET(above, left)) {
    at = above;
    above = GET(above, parent);
  }
  return above;
}
WRAPPER(struct node *, _ZSt18_Rb_tree_incrementPSt18_Rb_tree_node_base, struct node *at) { return next_node(at, PLACE); }
WRAPPER(struct node *, _ZSt18_Rb_tree_incrementPKSt18_Rb_tree_node_base, struct node *at) { return next_node(at, PLACE); }
WRAPPER(struct node *, _ZSt18_Rb_tree_decrementPSt18_Rb_tree_node_base, struct node *at) { return node_before(at, PLACE); }
WRAPPER(struct node *, _ZSt18_Rb_tree_decrementPKSt18_Rb_tree_node_base, struct node *at) { return node_before(at, PLACE); }

/* ---- rotations ---- */

/* What hung on `above`'s place of `old` is `new`: on the header's where `old` is the root. */
static void replace_child(struct node *header, struct node *old, struct node *new, uintptr_t place) {
  struct node *above = GET(old, parent);
  if (GET(header, parent) == old) SET(header, parent, new);
  else if (GET(above, left) == old) SET(above, left, new);
  else SET(above, right, new);
}
/* `at`'s child on one side comes up, and `at` goes down to the other. */
static void rotate(struct node *header, struct node *at, bool to_left, uintptr_t place) {
  struct node *up = to_left ? GET(at, right) : GET(at, left);
  struct node *inner = to_left ? GET(up, left) : GET(up, right);
  if (to_left) SET(at, right, inner);
  else SET(at, left, inner);
  if (inner) SET(inner, parent, at);
  SET(up, parent, GET(at, parent));
  replace_child(header, at, up, place);
  if (to_left) SET(up, left, at);
  else SET(up, right, at);
  SET(at, parent, up);
}

/* ---- insertion ---- */

WRAPPER(void, _ZSt29_Rb_tree_insert_and_rebalancebPSt18_Rb_tree_node_baseS0_RS_, bool on_left, struct node *at, struct node *parent,
        struct node *header) {
  uintptr_t place = PLACE;
  SET(at, parent, parent);
  SET(at, left, NULL);
  SET(at, right, NULL);
  SET(at, color, RED);
  if (on_left) {
    SET(parent, left, at);                       /* the first node of an empty tree, too, whose parent is the header */
    if (parent == header) {
      SET(header, parent, at);
      SET(header, right, at);
    } else if (parent == GET(header, left)) {
      SET(header, left, at);
    }
  } else {
    SET(parent, right, at);
    if (parent == GET(header, right)) SET(header, right, at);
  }
  while (at != GET(header, parent) && GET(GET(at, parent), color) == RED) {
    struct node *above = GET(at, parent), *top = GET(above, parent);
    bool is_left = above == GET(top, left);
    struct node *uncle = is_left ? GET(top, right) : GET(top, left);
    if (uncle && GET(uncle, color) == RED) {
      SET(above, color, BLACK);
      SET(uncle, color, BLACK);
      SET(top, color, RED);
      at = top;
      continue;
    }
    if (at == (is_left ? GET(above, right) : GET(above, left))) {
      rotate(header, above, is_left, place);
      struct node *swapped = above;
      above = at;
      at = swapped;
    }
    SET(above, color, BLACK);
    SET(top, color, RED);
    rotate(header, top, !is_left, place);
  }
  SET(GET(header, parent), color, BLACK);
}

/* ---- removal ---- */

static struct node *outermost(struct node *at, bool left, uintptr_t place) {
  for (struct node *next; (next = left ? GET(at, left) : GET(at, right)); at = next) {}
  return at;
}
static bool is_black(struct node *at, uintptr_t place) { return !at || GET(at, color) == BLACK; }

/* The paths through `at`, which hangs on `above` and may be none, miss one black node. */
static void restore_blacks(struct node *header, struct node *at, struct node *above, uintptr_t place) {
  while (at != GET(header, parent) && is_black(at, place)) {
    bool is_left = at == GET(above, left);
    struct node *sibling = is_left ? GET(above, right) : GET(above, left);
    if (GET(sibling, color) == RED) {
      SET(sibling, color, BLACK);
      SET(above, color, RED);
      rotate(header, above, is_left, place);
      sibling = is_left ? GET(above, right) : GET(above, left);
    }
    struct node *near = is_left ? GET(sibling, left) : GET(sibling, right);
    struct node *far = is_left ? GET(sibling, right) : GET(sibling, left);
    if (is_black(near, place) && is_black(far, place)) {
      SET(sibling, color, RED);
      at = above;
      above = GET(above, parent);
      continue;
    }
    if (is_black(far, place)) {
      SET(near, color, BLACK);
      SET(sibling, color, RED);
      rotate(header, sibling, !is_left, place);
      sibling = is_left ? GET(above, right) : GET(above, left);
      far = is_left ? GET(sibling, right) : GET(sibling, left);
    }
    SET(sibling, color, GET(above, color));
    SET(above, color, BLACK);
    if (far) SET(far, color, BLACK);
    rotate(header, above, is_left, place);
    break;
  }
  if (at) SET(at, color, BLACK);
}

/* Takes `at` out of the tree, and gives it back. Where it has two children the node behind it comes into its place. */
WRAPPER(struct node *, _ZSt28_Rb_tree_rebalance_for_erasePSt18_Rb_tree_node_baseRS_, struct node *at, struct node *header) {
  uintptr_t place = PLACE;
  struct node *left = GET(at, left), *right = GET(at, right), *child, *above;
  enum color lost = GET(at, color);
  if (left && right) {
    struct node *behind = outermost(right, true, place);
    child = GET(behind, right);
    lost = GET(behind, color);
    if (behind == right) {
      above = behind;
    } else {
      above = GET(behind, parent);
      if (child) SET(child, parent, above);
      SET(above, left, child);
      SET(behind, right, right);
      SET(right, parent, behind);
    }
    SET(behind, left, left);
    SET(left, parent, behind);
    replace_child(header, at, behind, place);
    SET(behind, parent, GET(at, parent));
    SET(behind, color, GET(at, color));
  } else {
    child = left ? left : right;
    above = GET(at, parent);
    if (child) SET(child, parent, above);
    replace_child(header, at, child, place);
    if (GET(header, left) == at) SET(header, left, right ? outermost(right, true, place) : above);
    if (GET(header, right) == at) SET(header, right, left ? outermost(left, false, place) : above);
  }
  if (lost == BLACK) restore_blacks(header, child, above, place);
  return at;
}
