//! The reduction to 15-bit console colours: Oklab to linear sRGB, the nearest of 32 levels a channel, and back.
//!
//! Only sums, products and quotients of f64 in the order written, so that a host in another language gets the same bits.

/// The linear value of each level k of 31.
#[rustfmt::skip]
const LINEAR: [f64; 32] = [
    0.0, 0.0024967542195146308, 0.0053705373494325435, 0.009529478582354435, 0.01513350723396306, 0.02229888300503533,
    0.03113008990948415, 0.041722573919128626, 0.05416457340265298, 0.06853841290915133, 0.0849214566468118,
    0.10338683447877332, 0.1240040094060311, 0.14683923082122904, 0.1719559031258607, 0.19941489015347055,
    0.229274769922375, 0.26159205028716875, 0.29642135334252967, 0.33381557452228633, 0.373826020963952,
    0.41650253270397164, 0.461893589520877, 0.5100464056783279, 0.5610070143871524, 0.6148203434699, 0.6715302834483289,
    0.7311797490658588, 0.7938107350904249, 0.8594643671088052, 0.928180947914277, 1.0,
];

/// The linear value half way, as a screen shows it, between each level and the next.
#[rustfmt::skip]
const MIDDLE: [f64; 31] = [
    0.0012483771097573154, 0.003792392796051665, 0.007277202030119244, 0.012143273954992474, 0.018514258266940864,
    0.026500105080178773, 0.0362005056328131, 0.04770711283591948, 0.06110507104859014, 0.07647412168664679,
    0.09388943220643681, 0.11342223607493707, 0.1351403386884612, 0.15910852527688701, 0.18538889529587912,
    0.21404114048223255, 0.2451227789274755, 0.2786893542583836, 0.3147946067415955, 0.35349062151404725,
    0.3948279579689726, 0.4388557634618833, 0.48562187385185457, 0.5351729028996006, 0.5875543221632379,
    0.6428105327358887, 0.7009849299354123, 0.7621199618704405, 0.826257182657428, 0.8934373009424142, 0.9637002242824307,
];

/// The levels, 0 to 31, of red, green and blue that are nearest to an Oklab colour.
pub fn levels(colour: [f32; 3]) -> [usize; 3] {
    let [l, a, b] = colour.map(f64::from);
    let cube = |x: f64| x * x * x;
    let long = cube(l + 0.3963377774 * a + 0.2158037573 * b);
    let middle = cube(l - 0.1055613458 * a - 0.0638541728 * b);
    let short = cube(l - 0.0894841775 * a - 1.2914855480 * b);
    let linear = [
        4.0767416621 * long - 3.3077115913 * middle + 0.2309699292 * short,
        -1.2684380046 * long + 2.6097574011 * middle - 0.3413193965 * short,
        -0.0041960863 * long - 0.7034186147 * middle + 1.7076147010 * short,
    ];
    linear.map(|channel| MIDDLE.iter().filter(|&&bound| bound <= channel).count())
}

/// The Oklab colour of levels, each 0 to 31.
pub fn shown(levels: [usize; 3]) -> [f32; 3] {
    let [r, g, b] = levels.map(|level| LINEAR[level]);
    let long = cube_root(0.4122214708 * r + 0.5363325363 * g + 0.0514459929 * b);
    let middle = cube_root(0.2119034982 * r + 0.6806995451 * g + 0.1073969566 * b);
    let short = cube_root(0.0883024619 * r + 0.2817188376 * g + 0.6299787005 * b);
    let colour = [
        0.2104542553 * long + 0.7936177850 * middle - 0.0040720468 * short,
        1.9779984951 * long - 2.4285922050 * middle + 0.4505937099 * short,
        0.0259040371 * long + 0.7827717662 * middle - 0.8086757660 * short,
    ];
    colour.map(|component| component as f32)
}

/// The console's colour for an Oklab colour.
///
/// ```
/// let grey = dunkafeto::console::reduced([0.5, 0.0, 0.0]);
/// assert_eq!(dunkafeto::console::reduced(grey), grey);
/// ```
pub fn reduced(colour: [f32; 3]) -> [f32; 3] {
    shown(levels(colour))
}

/// Newton's steps from 1; 60 are enough for every sum of the levels' values.
fn cube_root(x: f64) -> f64 {
    if x <= 0.0 {
        return 0.0;
    }
    (0..60).fold(1.0, |y, _| (2.0 * y + x / (y * y)) / 3.0)
}
