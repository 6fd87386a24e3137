//! The page of results: docs/BENCHMARKS.md.

use crate::charts::{grouped, heading};
use crate::finds::LENGTHS;
use crate::goals::{self, ratio};
use crate::growth::{PHRASE_LENGTHS, SOUGHT, TEXT_LENGTHS};
use crate::measure::{ClassResult, Results, PASSES, ROUNDS};
use crate::phrases::Kind;
use crate::ratio_chart;
use crate::sides::EngineTimes;
use crate::statistics::{geometric_mean, largest};
use crate::table::Table;
use crate::texts::Family;
use libretto::{Method, CUES_MAX, TEXT_MAX};

/// The names of the charts beside the page.
pub const RATIO_CHART: &str = "benchmark-ratios.svg";
/// The chart of growth with n.
pub const CHART_BY_N: &str = "benchmark-growth-n.svg";
/// The chart of growth with m.
pub const CHART_BY_M: &str = "benchmark-growth-m.svg";

/// The whole page.
pub fn page(results: &Results, date: &str, processor: &str, seconds: u64) -> String {
    let sections = [
        front(results, date, processor, seconds),
        goals(results),
        above(results),
        by_text(results),
        by_kind(results),
        others(results),
        tables(results),
        moves(results),
        cuts(results),
        books(results),
        growth(results),
        how_measured(results),
        every_class(results),
    ];
    sections.join("\n")
}

/// A table with a column for each engine.
struct ByEngine(Table);

impl ByEngine {
    fn new(first: &'static str) -> ByEngine {
        ByEngine(Table::new(std::iter::once(first).chain(Method::ALL.into_iter().map(heading))))
    }

    fn row(&mut self, name: impl Into<String>, cell: impl Fn(Method) -> String) {
        self.0.row(std::iter::once(name.into()).chain(Method::ALL.into_iter().map(cell)));
    }

    fn markdown(&self) -> String {
        self.0.markdown()
    }
}

fn yes(met: bool) -> String {
    if met { "yes" } else { "no" }.to_string()
}

fn front(results: &Results, date: &str, processor: &str, seconds: u64) -> String {
    format!(
        "# Benchmarks\n\n\
         Measured on {date} on one core of an {processor}; the C twins by {} -O3, the reference by {}. {} calls were compared before the clock \
         started, and the run took {seconds} seconds. Every ratio is the library's time over the other's: below 1 the library is faster.\n\n\
         To repeat it, which writes this page and its charts again (with `--print` it only prints the page):\n\n    bench/run\n",
        env!("TWIN_COMPILER"),
        env!("REFERENCE_COMPILER"),
        grouped(results.checked as usize),
    )
}

fn goals(results: &Results) -> String {
    format!(
        "## Goals\n\n\
         Each engine is to take at most {} times its C twin's time in the geometric mean over all {} classes, and at most {} times in each class. A \
         class is one kind of phrase in one text. Where a loop lies in memory moves its time as much as how it is written, so each side has its best \
         placement: the library's find is copied to four, and the twins are built three times. 'As linked' is the mean for the one place where the \
         linker put the library in this program; the last column is the C twin's slowest build over its fastest.\n\n{}\n{}",
        goals::MEAN,
        results.classes.len(),
        goals::CLASS,
        engine_goals(results).markdown(),
        other_goals(results).markdown()
    )
}

fn engine_goals(results: &Results) -> Table {
    let above = format!("classes above {}", goals::CLASS);
    let mut table = Table::new(["engine", "geometric mean", "as linked", "worst class", "its ratio", &above, "goal met", "C by placement"]);
    for verdict in goals::engines(results) {
        table.row([
            heading(verdict.method).to_string(),
            format!("{:.2}", verdict.mean),
            format!("{:.2}", verdict.linked),
            verdict.worst.name.clone(),
            format!("{:.2}", ratio(verdict.worst, verdict.method)),
            verdict.above.len().to_string(),
            yes(verdict.met()),
            format!("{:.2}", verdict.placement),
        ]);
    }
    table
}

fn other_goals(results: &Results) -> Table {
    let mut table = Table::new(["measure", "goal", "measured", "goal met"]);
    let mut at_most = |name: String, most: Option<f64>, measured: f64| {
        let goal = most.map_or("none".to_string(), |most| format!("at most {most}"));
        table.row([name, goal, format!("{measured:.2}"), most.map_or(String::new(), |most| yes(measured <= most))]);
    };
    for book in &results.books {
        let name = format!("resolving {CUES_MAX} cues over the same in C, phrases {}", book.phrases);
        at_most(name, Some(goals::RESOLVER), book.times.resolving / book.times.twin_resolving);
    }
    for book in &results.books {
        let name = format!("resolving {CUES_MAX} cues over as many finds by FJS in C, phrases {}", book.phrases);
        at_most(name, book.goal, book.times.resolving / book.times.twin_finding);
    }
    for method in [Method::Kmp, Method::Fjs] {
        let steepest = largest(goals::exponents(results, method, &TEXT_LENGTHS));
        at_most(format!("{}, exponent of the time's growth in n, the largest of all texts", heading(method)), Some(goals::EXPONENT), steepest);
    }
    let [by_1, by_15] = [results.folding.page_1, results.folding.page_15].map(goals::folding_speed);
    let goal = format!("at least {}", goals::FOLDING);
    table.row(["folding by page 1, bytes a nanosecond".to_string(), goal, format!("{by_1:.2}"), yes(by_1 >= goals::FOLDING)]);
    // Page 15 was given no goal: it looks each letter up in a table, where page 1 takes many letters at a time.
    table.row(["folding by page 15, bytes a nanosecond".to_string(), "none".to_string(), format!("{by_15:.2}"), String::new()]);
    table
}

fn above(results: &Results) -> String {
    let named = |verdict: &goals::EngineVerdict| -> String {
        let classes: Vec<String> = verdict.above.iter().map(|class| format!("{} ({:.2})", class.name, ratio(class, verdict.method))).collect();
        let classes = if classes.is_empty() { "none".to_string() } else { classes.join("; ") };
        format!("- {}: {classes}\n", heading(verdict.method))
    };
    format!("## Classes above {}\n\n{}", goals::CLASS, goals::engines(results).iter().map(named).collect::<String>())
}

/// The geometric mean of an engine's ratios over the classes that pass a test, in words.
fn mean(results: &Results, method: Method, test: impl Fn(&ClassResult) -> bool) -> String {
    format!("{:.2}", geometric_mean(results.classes.iter().filter(|class| test(class)).map(|class| ratio(class, method))))
}

fn by_text(results: &Results) -> String {
    let mut table = ByEngine::new("text");
    for family in Family::ALL {
        for length in LENGTHS {
            let test = |class: &ClassResult| class.family == family && class.length == length;
            table.row(format!("{} {}", family.name(), grouped(length)), |method| mean(results, method, test));
        }
    }
    format!(
        "## Ratio to the C twin, by text\n\nThe geometric mean over the kinds of phrase.\n\n{}\n\
         ![A dot for each class: the library's time over the C twin's, by engine and text]({RATIO_CHART})\n\n{}\n",
        table.markdown(),
        ratio_chart::caption()
    )
}

fn by_kind(results: &Results) -> String {
    let mut table = ByEngine::new("phrase");
    for kind in Kind::ALL {
        table.row(kind.name(), |method| mean(results, method, |class| class.kind == kind));
    }
    format!("## Ratio to the C twin, by phrase\n\nThe geometric mean over all texts.\n\n{}", table.markdown())
}

fn others(results: &Results) -> String {
    let long: Vec<&ClassResult> = results.classes.iter().filter(|class| class.length == TEXT_MAX).collect();
    let to_reference = |class: &ClassResult, method| class.times.engines[method as usize].library / class.times.engines[method as usize].reference;
    let to_memmem = |class: &ClassResult, method| class.times.engines[method as usize].library / class.times.memmem;
    let mut table = ByEngine::new("against");
    table.row("the reference", |method| format!("{:.2}", geometric_mean(long.iter().map(|class| to_reference(class, method)))));
    table.row("memmem", |method| format!("{:.2}", geometric_mean(long.iter().map(|class| to_memmem(class, method)))));
    for class in long.iter().filter(|class| class.family == Family::Verse) {
        table.row(format!("memmem, {}", class.name), |method| format!("{:.2}", to_memmem(class, method)));
    }
    format!(
        "## Ratio to the reference and to memmem\n\n\
         Texts of 32,768 letters, and the geometric mean over the classes. The reference is the safe-Rust implementation in `rust/reference`, whole \
         finds with its tables, which it makes by brute force; KMP's table is kept from the call before, and the clock starts after that. glibc's \
         `memmem`, called again one letter after each place, is what a C program would use without the library; it counts no comparisons.\n\n{}",
        table.markdown()
    )
}

fn tables(results: &Results) -> String {
    let mut table = ByEngine::new("letters of the phrase");
    for (length, engines) in &results.tables {
        let cell = |times: &EngineTimes| format!("{:.2} ({:.0} ns)", times.ratio(), times.library);
        table.row(grouped(*length), |method| cell(&engines[method as usize]));
    }
    format!(
        "## Tables alone\n\n\
         A find in an empty text fills the tables and compares nothing; here it is over the C twin's same call, with the library's time in brackets. \
         The naive engine has no tables, so its column is the price of a call.\n\n{}",
        table.markdown()
    )
}

fn moves(results: &Results) -> String {
    let over_twin = |class: &ClassResult| class.times.moves.library / class.times.moves.twin;
    let over_plain = |class: &ClassResult| class.times.moves.library / class.times.moves.plain;
    let mut table = Table::new(["a find with a list of moves", "geometric mean", "worst class", "its ratio"]);
    for (name, ratio) in [("over the same in C", &over_twin as &dyn Fn(&ClassResult) -> f64), ("over a find by method 4", &over_plain)] {
        let worst = results.classes.iter().max_by(|a, b| ratio(a).total_cmp(&ratio(b))).expect("there are classes");
        let mean = geometric_mean(results.classes.iter().map(ratio));
        table.row([name.to_string(), format!("{mean:.2}"), worst.name.clone(), format!("{:.2}", ratio(worst))]);
    }
    format!(
        "## With a list of moves\n\n\
         FJS with a list that has room for all moves, in all classes, the library as linked and the best build of C.\n\n{}",
        table.markdown()
    )
}

fn cuts(results: &Results) -> String {
    let mut table = Table::new(["phrases (places)", "stretch", "new letters", "all calls", "over C", "over a find by method 4"]);
    for cut in &results.cuts {
        let times = &cut.times;
        table.row([
            format!("{} ({})", cut.kind.name(), grouped(cut.places)),
            grouped(cut.lengths.0),
            grouped(cut.lengths.1),
            format!("{:.1} µs", times.library / 1e3),
            format!("{:.2}", times.library / times.twin),
            format!("{:.2}", times.library / times.finding),
        ]);
    }
    format!(
        "## Late cuts\n\n\
         The lists of three phrases of a kind after a cut in the middle of 32,568 letters of verse, the library as linked and the best build of C, \
         and the library's find of the same phrases in the new text. A row has the time of a call for each of its phrases, all together; a call looks \
         at the whole list, and at the text around the stretch alone.\n\n{}",
        table.markdown()
    )
}

fn books(results: &Results) -> String {
    let folding = &results.folding;
    let reading = ["phrases (book)", "reading the book", "over C", "another title", "over C"];
    let resolving = ["resolving", "walks", "over C", "over finds by FJS in C", "C over finds"];
    let mut table = Table::new(reading.into_iter().chain(resolving));
    for book in &results.books {
        let times = &book.times;
        table.row([
            format!("{} ({} bytes)", book.phrases, grouped(book.length)),
            format!("{:.1} µs", times.reading / 1e3),
            format!("{:.2}", times.reading / times.twin_reading),
            format!("{:.1} µs", times.retitling / 1e3),
            format!("{:.2}", times.retitling / times.twin_retitling),
            format!("{:.2} ms", times.resolving / 1e6),
            book.groups.to_string(),
            format!("{:.2}", times.resolving / times.twin_resolving),
            format!("{:.2}", times.resolving / times.twin_finding),
            format!("{:.2}", times.twin_resolving / times.twin_finding),
        ]);
    }
    format!(
        "## Cue books\n\n\
         Books of {CUES_MAX} cues that stand in 32,768 letters of verse, evenly spread and rising, every second one with days and every third one \
         house only; all of them play, and the operator resolves them all. Reading is a test of the whole book. Another title has it tested and written \
         anew, with the title of its middle cue replaced. Resolving walks over the text once for each group of cues, by an automaton of the group's \
         phrases. It is over the same in C, with the same automaton in the same scratch of 65,535 entries; and over {CUES_MAX} full finds of the phrases \
         by FJS in C, which are folded beforehand, in the folded text: the resolver folds them itself, and gives line and column too. A book of long \
         phrases has many groups of a few cues; each walk reads every letter, where a find leaves most of them out, so it has no goal against finds.\n\n{}\n\
         The library folds the 32,768 letters by page 1 in {:.2} µs, which is {:.2} bytes a nanosecond; by page 15, which looks each letter up in a \
         table, in {:.2} µs, which is {:.2}, and {:.2} of a loop over a constant table in C. A resolve of a book without cues folds the letters by page \
         1 into the copy and clears the scratch, and takes {:.2} µs.\n",
        table.markdown(),
        folding.page_1 / 1e3,
        goals::folding_speed(folding.page_1),
        folding.page_15 / 1e3,
        goals::folding_speed(folding.page_15),
        folding.page_15 / folding.twin,
        folding.no_cues / 1e3
    )
}

fn growth(results: &Results) -> String {
    let mut table = Table::new(std::iter::once("engine, text".to_string()).chain(TEXT_LENGTHS.map(grouped)).chain(["exponent".to_string()]));
    for method in [Method::Kmp, Method::Fjs] {
        for (grown, exponent) in results.by_n.iter().zip(goals::exponents(results, method, &TEXT_LENGTHS)) {
            let times = grown.times[method as usize].iter().map(|time| format!("{:.2}", time / 1e3));
            let name = format!("{}, {}", heading(method), grown.family.name());
            table.row(std::iter::once(name).chain(times).chain([format!("{exponent:.2}")]));
        }
    }
    let sought = SOUGHT.map(|length| length.to_string()).join(", ");
    format!(
        "## Growth with n and with m\n\n\
         The time of one find in microseconds by the text's length n, the mean of phrases of {sought} letters that the full text has. The text of \
         32,768 letters is cut into pieces of n letters, and all are searched in turn, so that each length reads the same letters. An exponent of 1 is \
         linear growth; it is below 1 where the tables weigh on the short texts.\n\n{}\n\
         ![The time for a letter of the text over n, by text and engine]({CHART_BY_N})\n\n\
         With the text at 32,768 letters, the phrase grows from {} letter to {}:\n\n\
         ![The time for a letter of the text over m, by text and engine]({CHART_BY_M})\n",
        table.markdown(),
        PHRASE_LENGTHS[0],
        grouped(PHRASE_LENGTHS[PHRASE_LENGTHS.len() - 1])
    )
}

fn how_measured(results: &Results) -> String {
    include_str!("how_measured.md")
        .replace("{rounds}", &(PASSES * ROUNDS).to_string())
        .replace("{passes}", &PASSES.to_string())
        .replace("{classes}", &results.classes.len().to_string())
}

fn every_class(results: &Results) -> String {
    let mut table = ByEngine::new("class");
    for class in &results.classes {
        table.row(class.name.clone(), |method| format!("{:.2}", ratio(class, method)));
    }
    format!("## Every class\n\nThe ratio to the C twin.\n\n{}", table.markdown())
}
