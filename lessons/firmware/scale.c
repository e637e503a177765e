/* The firmware of an imagined bee scale: it has no scale, so it invents the hive's weight, day by day, and keeps it in a diary. */

/* The days of the diary, and what a hive weighs at least and at most, in grams. */
#define DAYS 365
#define LIGHTEST 18000
#define HEAVIEST 62000

/* The days at which the nectar begins to flow and ends, and the day of the harvest. */
#define FLOW_BEGINS 110
#define FLOW_ENDS 205
#define HARVEST 210

/* What a hive gains on a day of flow at most, loses on another, and what is taken from it at the harvest, in grams. */
#define MOST_GAINED 900
#define LOST 45
#define HARVESTED 24000

/* The factor and the summand by which the next invented number follows from the last. */
#define FACTOR 1103515245u
#define SUMMAND 12345u

/* The days of a week, the characters of a line of the display with the zero behind them, and how many things an array holds. */
#define WEEK 7
#define LINE 52
#define COUNT(array) (sizeof(array) / sizeof(array)[0])

/* The top of the stack, which is the end of SRAM. */
#define STACK_TOP ((void (*)(void)) 0x20002000)

/* Greetings that the display shows, one a week. */
static const char *const greetings[] = {
    "The bees are asleep.",
    "Snow lies on the roof of the hive.",
    "The willow is in flower.",
    "First pollen: yellow, from the hazel.",
    "The cherry trees hum.",
    "Watch for swarms today.",
    "The lime trees are in flower.",
    "Honey is ripe when four cells of five are capped.",
    "Leave them enough for the winter.",
    "Feed before the first frost.",
    "Count the mites.",
    "Do not open the hive below ten degrees.",
};

/* Last year's diary, one line of the display a week. */
static const char last_year[][LINE] = {
    "Week 1: 23.97 kg, asleep.",
    "Week 2: 23.64 kg.",
    "Week 3: 23.51 kg.",
    "Week 4: 23.32 kg.",
    "Week 5: 23.07 kg, snow on the roof.",
    "Week 6: 22.96 kg.",
    "Week 7: 22.86 kg.",
    "Week 8: 22.56 kg.",
    "Week 9: 22.33 kg, hazel pollen.",
    "Week 10: 22.22 kg.",
    "Week 11: 22.03 kg, willow in flower.",
    "Week 12: 21.79 kg.",
    "Week 13: 21.69 kg.",
    "Week 14: 24.17 kg, first flight of the young bees.",
    "Week 15: 25.45 kg.",
    "Week 16: 26.00 kg, cherry in flower.",
    "Week 17: 26.75 kg.",
    "Week 18: 28.93 kg, second box put on.",
    "Week 19: 31.04 kg.",
    "Week 20: 31.73 kg, watch for swarms.",
    "Week 21: 33.11 kg, a swarm, caught.",
    "Week 22: 33.88 kg.",
    "Week 23: 36.02 kg.",
    "Week 24: 36.66 kg, acacia in flower.",
    "Week 25: 37.57 kg.",
    "Week 26: 38.88 kg, lime in flower.",
    "Week 27: 39.54 kg.",
    "Week 28: 41.56 kg.",
    "Week 29: 41.46 kg, cells are capped.",
    "Week 30: 19.96 kg, harvest.",
    "Week 31: 22.46 kg, fed with syrup.",
    "Week 32: 24.18 kg.",
    "Week 33: 25.73 kg.",
    "Week 34: 25.50 kg.",
    "Week 35: 25.19 kg, mites counted.",
    "Week 36: 25.06 kg.",
    "Week 37: 24.90 kg.",
    "Week 38: 24.70 kg, ivy in flower.",
    "Week 39: 24.58 kg.",
    "Week 40: 24.35 kg.",
    "Week 41: 24.23 kg.",
    "Week 42: 23.99 kg, last pollen.",
    "Week 43: 23.83 kg.",
    "Week 44: 23.59 kg.",
    "Week 45: 23.29 kg, first frost.",
    "Week 46: 23.03 kg.",
    "Week 47: 22.89 kg.",
    "Week 48: 22.78 kg, mouse guard put on.",
    "Week 49: 22.54 kg.",
    "Week 50: 22.30 kg.",
    "Week 51: 22.05 kg.",
    "Week 52: 21.91 kg, asleep.",
};

/* What the display shows at the start. */
static const char bee[] =
    "                 \\     /            \n"
    "                  \\   /             \n"
    "        .-\"\"\"-.    \\ /    .-\"\"\"-.   \n"
    "      .'       '.  (o)  .'       '. \n"
    "     /           \\ ( ) /           \\\n"
    "     \\            \\( )/            /\n"
    "      '.           (_)           .' \n"
    "        '-.____.-'(===)'-.____.-'   \n"
    "                  (###)             \n"
    "                 (=====)            \n"
    "                 (#####)            \n"
    "                  (===)             \n"
    "                   (#)              \n"
    "                    V               \n";

/* The diary, in grams for each day, and the number that was invented last. */
static volatile unsigned diary[DAYS];
static unsigned invented;

/* The display: whatever is put here is shown, character by character. */
static volatile char display;

/* Invents a number below a bound. */
static unsigned invent(unsigned bound) {
    invented = invented * FACTOR + SUMMAND;
    return (invented >> 16) % bound;
}

/* The weight on the next day. */
static unsigned next_weight(unsigned day, unsigned weight) {
    if (day == HARVEST && weight > LIGHTEST + HARVESTED)
        return weight - HARVESTED;
    if (day >= FLOW_BEGINS && day < FLOW_ENDS)
        weight += invent(MOST_GAINED);
    else if (weight > LIGHTEST + LOST)
        weight -= LOST;
    return weight > HEAVIEST ? HEAVIEST : weight;
}

/* Shows a text on the display. */
static void show(const char *text) {
    while (*text)
        display = *text++;
}

/* Shows the greeting of a day and what the diary says of its week last year. */
static void show_day(unsigned day) {
    unsigned week = day / WEEK;
    show(greetings[week % COUNT(greetings)]);
    show(last_year[week % COUNT(last_year)]);
}

/* Invents a year of weights, again and again. */
void start(void) {
    invented = 0xBEE;
    show(bee);
    for (;;) {
        unsigned weight = LIGHTEST + invent(HEAVIEST - LIGHTEST);
        for (unsigned day = 0; day < DAYS; day++) {
            diary[day] = weight = next_weight(day, weight);
            show_day(day);
        }
    }
}

/* The first two words of flash: the top of the stack, and where the firmware starts. */
__attribute__((section(".vectors"), used)) void (*const vectors[])(void) = {STACK_TOP, start};
