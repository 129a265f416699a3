// Uses the module alone.
import card;

int main() {
    card made;
    if (made.make() != 0 || made.make() == 0) return 1;
#ifdef __clang__
    if (gt::gt_text(0)[0] != 'o') return 2;
#endif
    return 0;
}
