//! The latest trend of a trace as a line of text. It has the words of a segment's line in a report.

use humoraki::{Line, Outlook, Trace, Trend};

/// A trace without ranges has no times to tell.
pub fn text_of(trace: &Trace, trend: &Trend) -> String {
    let run = &trace.times[trace.times.len() - trend.ranges..];
    let times = run.first().zip(run.last());
    let times = times.map_or(String::new(), |(first, last)| format!(" from {first} to {last}"));
    format!("latest{times} ranges {} {}\n", trend.ranges, outlook_text(trend.outlook))
}

fn outlook_text(outlook: Outlook) -> String {
    match outlook {
        Outlook::Open => "open".to_string(),
        Outlook::Lines { slow, fast, some, all } => {
            let (slow, fast) = (line_text(slow), line_text(fast));
            format!("slow {slow} fast {fast} some {} all {}", time_text(some), time_text(all))
        }
    }
}

fn line_text(Line { p, q, d }: Line) -> String {
    format!("{p} {q} {d}")
}

fn time_text(time: Option<u32>) -> String {
    time.map_or("none".to_string(), |time| time.to_string())
}
