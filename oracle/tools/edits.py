"""The generated edits of docs/src. docs/src itself is never changed.

Every edit is found by its whole line, which must stand exactly once: a changed docs/src stops the build.
No edit adds or removes a line, so line numbers are those of docs/src.
"""
import re

# The functions that the Rust takes from the platform, and where the port has its own.
PLATFORM = {
    "sqrt": "roots",
    "hypot": "roots",
    "exp": "elementary",
    "ln": "elementary",
    "ln_1p": "elementary",
    "atan": "elementary",
    "sin": "elementary",
}
# Others that a later docs/src might call: the port has none of these, so the build must stop.
FOREIGN = """acos acosh asin asinh atan2 atanh cbrt cos cosh exp2 exp_m1 gamma ln_gamma log log10 log2
             mul_add powf sin_cos sinh tan tanh""".split()

DWTEST = "timeseries/dwtest.rs"
AUTOCORRELATION = "timeseries/autocorrelation.rs"

# The port's law holds the variance; the Rust hands over only its root. The root is taken again by
# the tail, from the same bits, so z = (x - mean) / sqrt(variance) has the Rust's bits.
LAW = (
    "    let Ok(norm) = Normal::new(dmean, dvar.sqrt()) else {",
    "    let Ok(norm) = Normal::of_variance(dmean, dvar) else {",
)

# What the counting copy notes. Each line says what it said before, and then notes a value.
COUNTED = [
    (DWTEST, "    for (j, col) in x.iter().enumerate() {",
             "    for (j, col) in x.iter().enumerate() { crate::record::column(j);"),
    (DWTEST, "    let xtx_inv = xtx_inverse(x)?;",
             "    let xtx_inv = xtx_inverse(x)?; crate::record::inverse(&xtx_inv);"),
    (DWTEST, "            let pdw = imhof_prob_below_zero(&shifted).clamp(0.0, 1.0);",
             "            let pdw = crate::record::imhof(imhof_prob_below_zero(&shifted)).clamp(0.0, 1.0);"),
    (DWTEST, "                let scale: f64 = x[i].iter().map(|v| v * v).sum();",
             "                let scale: f64 = x[i].iter().map(|v| v * v).sum(); crate::record::pivot(s, scale);"),
    (DWTEST, "    let mut ev = symmetric_eigenvalues(b);",
             "    crate::record::product(&b); let mut ev = symmetric_eigenvalues(b); crate::record::delivered(&ev);"),
    (DWTEST, "    ev.retain(|&v| v > EV_TOL);",
             "    ev.retain(|&v| v > EV_TOL); crate::record::kept(&ev);"),
    (DWTEST, "    // Implicit QL on the tridiagonal (d, e); e[i] couples d[i] and d[i + 1].",
             "    crate::record::tridiagonal(&d, &e);"),
    (DWTEST, "            let mut g = (d[l + 1] - d[l]) / (2.0 * e[l]);",
             "            crate::record::sweep(); let mut g = (d[l + 1] - d[l]) / (2.0 * e[l]);"),
    (DWTEST, "            if iter > 60 {",
             "            if iter > 60 { crate::record::stuck();"),
    (DWTEST, "    let w: Vec<f64> = weights.iter().copied().filter(|&v| v != 0.0).collect();",
             "    let w: Vec<f64> = weights.iter().copied().filter(|&v| v != 0.0).collect(); crate::record::weights(&w);"),
    (DWTEST, "    let g = |s: f64| {",
             "    crate::record::range(s_lo, s_hi); let g = |s: f64| { crate::record::evaluation();"),
    (DWTEST, "    let integral = gauss_kronrod_adaptive(&g, s_lo, s_hi, 0.5 * IMHOF_TOL);",
             "    let integral = crate::record::integral(gauss_kronrod_adaptive(&g, s_lo, s_hi, 0.5 * IMHOF_TOL));"),
    (DWTEST, "    (k * h, ((k - gs) * h).abs())",
             "    crate::record::estimate((k * h, ((k - gs) * h).abs()))"),
    (DWTEST, "        let (lo, hi, _, _) = parts.swap_remove(worst);",
             "        crate::record::worst(&parts, worst); let (lo, hi, _, _) = parts.swap_remove(worst);"),
    (DWTEST, "        let mid = 0.5 * (lo + hi);",
             "        crate::record::bisection(); let mid = 0.5 * (lo + hi);"),
    (DWTEST, "    parts.iter().map(|p| p.2).sum()",
             "    crate::record::parts(&parts); parts.iter().map(|p| p.2).sum()"),
    (DWTEST, "    if n < 5.max(k) {",
             "    crate::record::normal(); if n < 5.max(k) {"),
    (DWTEST, "    let dvar = 2.0 / ((nf - kf) * (nf - kf + 2.0)) * (q - p * dmean);",
             "    let dvar = 2.0 / ((nf - kf) * (nf - kf + 2.0)) * (q - p * dmean); crate::record::law(dmean, dvar);"),
    (AUTOCORRELATION, "    let sd: f64 = residuals.windows(2).map(|w| (w[1] - w[0]).powi(2)).sum();",
                      "    let sd: f64 = residuals.windows(2).map(|w| (w[1] - w[0]).powi(2)).sum(); crate::record::sums(ss, sd);"),
]


class EditError(Exception):
    """docs/src is not what the edits were written for."""


def replace_line(text, place, old, new):
    """`text` with the one line `old` replaced."""
    lines = text.split("\n")
    if lines.count(old) != 1:
        raise EditError("%s: this line stands %d times and not once: %s" % (place, lines.count(old), old.strip()))
    lines[lines.index(old)] = new
    return "\n".join(lines)


def opened(text):
    """`text` with its private functions opened. Taking the added words out gives `text` back."""
    return re.sub(r"^(?:pub\(crate\) )?fn ", "pub fn ", text, flags=re.M)


def rerouted(text, place):
    """`text` with each call of a platform function sent to the port's, by a method of the crate `functions`."""
    foreign = re.search(r"\.(%s)\(" % "|".join(FOREIGN), text)
    if foreign:
        raise EditError("%s calls .%s(), which the port has not" % (place, foreign[1]))
    if place == DWTEST:
        text = replace_line(text, place, *LAW)
    sent = re.sub(r"\.(%s)\(" % "|".join(PLATFORM), r".ours_\1(", text)
    if sent == text:
        return text
    first_use = re.search(r"^use ", sent, re.M)
    return sent[:first_use.start()] + "use functions::Ours; " + sent[first_use.start():]


def counted(files):
    """`files`, by place, with the records of the counting copy."""
    files = dict(files)
    for place, old, new in COUNTED:
        files[place] = replace_line(files[place], place, old, new)
    return files


def changed_lines(before, after):
    """(number, old, new) of each line that differs."""
    pairs = zip(before.split("\n"), after.split("\n"))
    return [(t + 1, old, new) for t, (old, new) in enumerate(pairs) if old != new]


def with_list(text, place, before):
    """`text` followed by a comment that lists every line that is not as in docs/src; unchanged where none is."""
    if text == before:
        return text
    listed = ["// Generated from docs/src/src/%s. Lines that differ from it:" % place]
    listed += ["// %d: %s" % (number, old.strip()) for number, old, _ in changed_lines(before, text)]
    return text.rstrip("\n") + "\n\n" + "\n".join(listed) + "\n"
