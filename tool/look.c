/* look: the tool without the library. It judges the words and files that it is given as the tool would, before
 * anything is proved or built, and says nothing where they are good. */
#include "tool.h"

int main(int count, char **words) {
    job j = job_of(count, words);
    outs_judged(&j);
    files_judged(&j);
    return DONE;
}
