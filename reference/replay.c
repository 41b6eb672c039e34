/*
 * Replays a script on the site of site.h, and prints what `dmr_trunk --script` prints.
 *
 *     replay PLAN SCRIPT
 *
 * plan.h says how a plan is read. It checks nothing of a script.
 */
#include "play.h"
#include "plan.h"

enum { LINE_ROOM = 1 << 20 };

int main(int argc, char **argv) {
    static char line[LINE_ROOM];
    Plan plan;
    FILE *plan_file = argc == 3 ? fopen(argv[1], "r") : 0, *script = argc == 3 ? fopen(argv[2], "r") : 0;
    if (!plan_file || !script || !read_plan(&plan, plan_file)) {
        fputs("replay: PLAN SCRIPT, and the plan in the lines of plan.h\n", stderr);
        return 2;
    }
    make_coder_tables();
    Play play = new_play(&plan);
    while (fgets(line, sizeof line, script)) play_line(&play, line);
    write_printed(&play, stdout);
    fclose(plan_file);
    fclose(script);
    free_play(&play);
    return 0;
}
