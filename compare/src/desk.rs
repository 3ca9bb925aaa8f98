//! Where the calls are compared: the memory that is lent over and over, the random numbers and the tally.

use crate::alteration::Alteration;
use crate::answers::{self, Effect, borrowed};
use crate::calls::add::AddCall;
use crate::calls::corners::CornersCall;
use crate::calls::head_ranges::HeadRangesCall;
use crate::calls::latest::LatestCall;
use crate::calls::preview::PreviewCall;
use crate::calls::read::ReadCall;
use crate::calls::report::ReportCall;
use crate::calls::segment::SegmentCall;
use crate::calls::write::WriteCall;
use crate::calls::{Returned, Told, Wrong, uses};
use crate::difference::{Difference, Outcome};
use crate::file;
use crate::line::Line;
use crate::panel::Panel;
use crate::random::Random;
use crate::report;
use crate::room::Room;
use crate::segments::{BY_CLIPPING, Fitter, Segment, segments};
use crate::tally::{Call, Tally};
use crate::trace::{Lists, Range, Service, Trace};
use crate::trends::Trend;

pub struct Desk {
    pub random: Random,
    pub tally: Tally,
    /// what is altered after a call, if the comparison is to be seen to fail
    pub alteration: Option<Alteration>,
    read: ReadCall,
    write: WriteCall,
    segment: SegmentCall,
    corners: CornersCall,
    preview: PreviewCall,
    latest: LatestCall,
    report: ReportCall,
    add: AddCall,
    head_ranges: HeadRangesCall,
}

impl Desk {
    pub fn new(seed: u64) -> Desk {
        Desk {
            random: Random::new(seed),
            tally: Tally::default(),
            alteration: None,
            read: ReadCall::new(),
            write: WriteCall::new(),
            segment: SegmentCall::new(),
            corners: CornersCall::new(),
            preview: PreviewCall::new(),
            latest: LatestCall::new(),
            report: ReportCall::new(),
            add: AddCall::new(),
            head_ranges: HeadRangesCall::new(),
        }
    }

    pub fn read(&mut self, file: &[u8], expected: Result<&Trace, u8>, room: &Room) -> Outcome {
        let returned = self.read.call(file, expected, room, &mut self.random);
        let judged = judged(returned, &mut self.alteration, &mut self.random, &mut self.tally);
        judged.map_err(|wrong| wrong.in_call(Told::on_file(format!("Read, {room}"), file)))
    }

    pub fn write(&mut self, handed: (u32, Service, &Lists), expected: Result<&[u8], u8>, room: &Room) -> Outcome {
        let returned = self.write.call(handed, expected, room, &mut self.random);
        let judged = judged(returned, &mut self.alteration, &mut self.random, &mut self.tally);
        let (address, service, lists) = handed;
        let call = || format!("Write, address {address}, {}, {room}", service.in_words());
        judged.map_err(|wrong| wrong.in_call(Told::on_lists(call(), lists, address, service)))
    }

    pub fn segment(
        &mut self,
        service: Service,
        lists: &Lists,
        expected: Result<&[Segment], u8>,
        room: &Room,
    ) -> Outcome {
        let returned = self.segment.call((service, lists), expected, room, &mut self.random);
        let judged = judged(returned, &mut self.alteration, &mut self.random, &mut self.tally);
        let call = || format!("Segment, {}, {room}", service.in_words());
        judged.map_err(|wrong| wrong.in_call(Told::on_lists(call(), lists, 1, service)))
    }

    pub fn corners(&mut self, k: usize, lists: &Lists, expected: Result<&[Line], u8>, room: &Room) -> Outcome {
        let returned = self.corners.call((k, lists), expected, room, &mut self.random);
        let judged = judged(returned, &mut self.alteration, &mut self.random, &mut self.tally);
        let call = || format!("Corners, k {k}, {room}");
        judged.map_err(|wrong| wrong.in_call(Told::on_lists(call(), lists, 1, Service::rising(0))))
    }

    pub fn preview(&mut self, handed: (Service, &Lists, &Range), expected: Result<&Effect, u8>) -> Outcome {
        let returned = self.preview.call(handed, expected, &mut self.random);
        let judged = judged(returned, &mut self.alteration, &mut self.random, &mut self.tally);
        let begins = expected.map(|effect| effect.begins);
        self.tally.add("previews: the range joins", (begins == Ok(false)) as usize);
        self.tally.add("previews: the range begins a segment", (begins == Ok(true)) as usize);
        let (service, lists, Range { time, low, high }) = handed;
        let call = || format!("Preview, {}, time {time}, low {low}, high {high}", service.in_words());
        judged.map_err(|wrong| wrong.in_call(Told::on_lists(call(), lists, 1, service)))
    }

    pub fn latest(&mut self, handed: (Service, &Lists), expected: Result<&Trend, u8>, room: &Room) -> Outcome {
        let returned = self.latest.call(handed, expected, room, &mut self.random);
        let judged = judged(returned, &mut self.alteration, &mut self.random, &mut self.tally);
        let (service, lists) = handed;
        let call = || format!("Latest, {}, {room}", service.in_words());
        judged.map_err(|wrong| wrong.in_call(Told::on_lists(call(), lists, 1, service)))
    }

    /// Latest on these ranges, of which it has to give this trend; how many ranges it said that the run has.
    pub fn told_latest(
        &mut self,
        service: Service,
        ranges: &[Range],
        trend: &Trend,
    ) -> Result<usize, Box<Difference>> {
        self.latest((service, &Lists::of(ranges)), Ok(trend), &Room::enough())?;
        Ok(self.latest.told())
    }

    pub fn report(&mut self, file: &[u8], expected: &str, room: &Room) -> Outcome {
        let returned = self.report.call(file, expected, room, &mut self.random);
        let judged = judged(returned, &mut self.alteration, &mut self.random, &mut self.tally);
        self.tally.add("reports of a refusal", expected.starts_with("refused") as usize);
        self.tally.add("reports of refusal 11", (expected == report::refused(11)) as usize);
        judged.map_err(|wrong| wrong.in_call(Told::on_file(self.report.in_words(expected, room), file)))
    }

    pub fn add(&mut self, handed: (&Panel, u32, &Range), expected: Result<&Panel, u8>) -> Outcome {
        let returned = self.add.call(handed, expected, &mut self.random);
        let judged = judged(returned, &mut self.alteration, &mut self.random, &mut self.tally);
        let (panel, address, Range { time, low, high }) = handed;
        let call = || format!("Add, address {address}, time {time}, low {low}, high {high}");
        judged.map_err(|wrong| wrong.in_call(Told::on_panel(call(), panel)))
    }

    pub fn head_ranges(&mut self, handed: (&Panel, u32), expected: Result<&[Range], u8>, room: &Room) -> Outcome {
        let returned = self.head_ranges.call(handed, expected, room, &mut self.random);
        let judged = judged(returned, &mut self.alteration, &mut self.random, &mut self.tally);
        let (panel, address) = handed;
        judged
            .map_err(|wrong| wrong.in_call(Told::on_panel(format!("Head ranges, address {address}, {room}"), panel)))
    }

    /// Head ranges of a head that holds these ranges, and Segment on the lists that it left.
    pub fn head_segments(&mut self, panel: &Panel, address: u32, ranges: &[Range], service: Service) -> Outcome {
        self.head_ranges((panel, address), Ok(ranges), &Room::enough())?;
        let segments = segments(ranges, service, BY_CLIPPING);
        self.segment(service, &self.head_ranges.left(), Ok(&segments), &Room::enough())
    }

    /// Read and the report of a file that may be damaged; where it is accepted, Write gives its bytes back, or, of
    /// readings, a file of ranges with the same trace and the same report.
    pub fn file(&mut self, file: &[u8], fitter: Fitter) -> Outcome {
        let expected = answers::read(file);
        let text = answers::report(file, fitter);
        self.read(file, borrowed(&expected), &Room::enough())?;
        self.report(file, &text, &Room::enough())?;
        match expected {
            Ok(trace) if file::has_readings(file) => self.written_as_ranges(&trace, &text),
            Ok(trace) => self.written(&trace, file),
            Err(_) => Ok(()),
        }
    }

    fn written(&mut self, trace: &Trace, file: &[u8]) -> Outcome {
        let lists = Lists::of(&trace.ranges);
        self.write((trace.address, trace.service, &lists), Ok(file), &Room::enough())
    }

    fn written_as_ranges(&mut self, trace: &Trace, text: &str) -> Outcome {
        let file = file::bytes(trace);
        self.tally.add("readings written as ranges", 1);
        self.written(trace, &file)?;
        self.read(&file, Ok(trace), &Room::enough())?;
        self.report(&file, text, &Room::enough())
    }

    /// Every alteration that a call can be followed by.
    pub fn alterations(&mut self) -> Vec<Alteration> {
        let calls = [
            (Call::Read, self.read.lent()),
            (Call::Write, self.write.lent()),
            (Call::Segment, self.segment.lent()),
            (Call::Corners, self.corners.lent()),
            (Call::Preview, self.preview.lent()),
            (Call::Latest, self.latest.lent()),
            (Call::Report, self.report.lent()),
            (Call::Add, self.add.lent()),
            (Call::HeadRanges, self.head_ranges.lent()),
        ];
        calls.into_iter().flat_map(|(call, lent)| Alteration::all(call, &uses(lent))).collect()
    }
}

/// Counts the answer of a call and judges all that it gave, after one thing of it was altered, if that is asked for.
fn judged(
    mut returned: Returned,
    alteration: &mut Option<Alteration>,
    random: &mut Random,
    tally: &mut Tally,
) -> Result<(), Wrong> {
    tally.answer(returned.call, returned.expected);
    match alteration {
        Some(alteration) if alteration.make(&mut returned, random) => {
            let judged = returned.judge();
            alteration.judged(judged.is_err());
            judged
        }
        _ => returned.judge(),
    }
}
