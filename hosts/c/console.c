/* The console's colours: 15 bits, five for each of red, green and blue. Oklab to linear light, to the nearest level of sRGB, and back.
 * The same bits come out on every machine: doubles, only + - * / in the order written (compile with -ffp-contract=off), no libm. */
#include "console.h"

enum { LEVELS = 32, ROOT_STEPS = 60 };

/* The light of each level: sRGB k / 31, made linear. */
static const double linear[LEVELS] = {
    0.0,                  0.0024967542195146308, 0.0053705373494325435, 0.009529478582354435,
    0.01513350723396306,  0.02229888300503533,   0.03113008990948415,   0.041722573919128626,
    0.05416457340265298,  0.06853841290915133,   0.0849214566468118,    0.10338683447877332,
    0.1240040094060311,   0.14683923082122904,   0.1719559031258607,    0.19941489015347055,
    0.229274769922375,    0.26159205028716875,   0.29642135334252967,   0.33381557452228633,
    0.373826020963952,    0.41650253270397164,   0.461893589520877,     0.5100464056783279,
    0.5610070143871524,   0.6148203434699,       0.6715302834483289,    0.7311797490658588,
    0.7938107350904249,   0.8594643671088052,    0.928180947914277,     1.0,
};

/* Where one level ends and the next begins: sRGB (k + 0.5) / 31, made linear. */
static const double middle[LEVELS - 1] = {
    0.0012483771097573154, 0.003792392796051665, 0.007277202030119244, 0.012143273954992474,
    0.018514258266940864,  0.026500105080178773, 0.0362005056328131,   0.04770711283591948,
    0.06110507104859014,   0.07647412168664679,  0.09388943220643681,  0.11342223607493707,
    0.1351403386884612,    0.15910852527688701,  0.18538889529587912,  0.21404114048223255,
    0.2451227789274755,    0.2786893542583836,   0.3147946067415955,   0.35349062151404725,
    0.3948279579689726,    0.4388557634618833,   0.48562187385185457,  0.5351729028996006,
    0.5875543221632379,    0.6428105327358887,   0.7009849299354123,   0.7621199618704405,
    0.826257182657428,     0.8934373009424142,   0.9637002242824307,
};

/* The light that the console shows for this much light. */
static double shown(double light) {
    int level = 0;
    for (int k = 0; k < LEVELS - 1; k++)
        level += middle[k] <= light;
    return linear[level];
}

static double cube(double x) { return x * x * x; }

/* By Newton's steps, as many as reach it from 1 for every x that occurs. */
static double cube_root(double x) {
    double y = 1;
    if (x <= 0)
        return 0;
    for (int i = 0; i < ROOT_STEPS; i++)
        y = (2 * y + x / (y * y)) / 3;
    return y;
}

/* Red, green and blue light of an Oklab colour. */
static void light_of(const float *colour, double *rgb) {
    double l = colour[0], a = colour[1], b = colour[2];
    double l3 = cube(l + 0.3963377774 * a + 0.2158037573 * b);
    double m3 = cube(l - 0.1055613458 * a - 0.0638541728 * b);
    double s3 = cube(l - 0.0894841775 * a - 1.2914855480 * b);
    rgb[0] = 4.0767416621 * l3 - 3.3077115913 * m3 + 0.2309699292 * s3;
    rgb[1] = -1.2684380046 * l3 + 2.6097574011 * m3 - 0.3413193965 * s3;
    rgb[2] = -0.0041960863 * l3 - 0.7034186147 * m3 + 1.7076147010 * s3;
}

static void oklab_of(const double *rgb, float *colour) {
    double r = rgb[0], g = rgb[1], b = rgb[2];
    double l = cube_root(0.4122214708 * r + 0.5363325363 * g + 0.0514459929 * b);
    double m = cube_root(0.2119034982 * r + 0.6806995451 * g + 0.1073969566 * b);
    double s = cube_root(0.0883024619 * r + 0.2817188376 * g + 0.6299787005 * b);
    colour[0] = (float)(0.2104542553 * l + 0.7936177850 * m - 0.0040720468 * s);
    colour[1] = (float)(1.9779984951 * l - 2.4285922050 * m + 0.4505937099 * s);
    colour[2] = (float)(0.0259040371 * l + 0.7827717662 * m - 0.8086757660 * s);
}

void console_reduce(const float *from, float *to, size_t colours) {
    for (size_t i = 0; i < colours; i++) {
        double rgb[3];
        light_of(from + 3 * i, rgb);
        for (int k = 0; k < 3; k++)
            rgb[k] = shown(rgb[k]);
        oklab_of(rgb, to + 3 * i);
    }
}
