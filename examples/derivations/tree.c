// The sum of the keys of a tree: two recursive calls, so many calls, but never deeper than the depth that is given.

struct node {
  int key;
  struct node *left, *right;
};

struct node one = {1, 0, 0}, three = {3, 0, 0}, five = {5, 0, 0}, seven = {7, 0, 0};
struct node two = {2, &one, &three}, six = {6, &five, &seven};
struct node four = {4, &two, &six};

int sum(struct node *tree, unsigned depth) {
  if (depth == 0)
    return 0;
  if (!tree)
    return 0;
  return tree->key + sum(tree->left, depth - 1) + sum(tree->right, depth - 1);
}

int main(unsigned depth) { return sum(&four, depth); }
