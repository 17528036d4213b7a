use crate::orders::Order;
use crate::refusal;
use crate::run::{run, Delivery, Run};
use crate::schedule::{read, Refused};
use crate::text::Text;

/// The replay program's text for a file of these bytes, and its length. A refused file has its text
/// too; 22 is given if the buffer is too short.
pub fn replay(bytes: &[u8], buffer: &mut [u8]) -> Result<usize, u8> {
    match read(bytes) {
        Ok(schedule) => report(&run(&schedule), buffer),
        Err(refused) => write(buffer, |text| write_refused(text, refused)),
    }
}

/// The text of a run, and its length: refusal 22.
pub fn report(run: &Run, buffer: &mut [u8]) -> Result<usize, u8> {
    write(buffer, |text| write_run(text, run))
}

/// Counts first: the buffer stays as it was if the text does not fit.
fn write(buffer: &mut [u8], lines: impl Fn(&mut Text)) -> Result<usize, u8> {
    let mut counted = Text::new(&mut []);
    lines(&mut counted);
    let length = counted.length;
    if length > buffer.len() {
        return Err(refusal::SHORT);
    }
    lines(&mut Text::new(buffer));
    Ok(length)
}

fn write_refused(text: &mut Text, refused: Refused) {
    text.word("refused");
    text.number(u64::from(refused.number));
    if refused.number == refusal::RECORD {
        text.number(u64::from(refused.record));
    }
    text.line_end();
}

fn write_run(text: &mut Text, run: &Run) {
    text.word("delta");
    text.number(run.bound);
    text.line_end();
    for (start, &refused) in (0..).zip(&run.refused) {
        if refused != 0 {
            text.word("start");
            text.number(start);
            text.word(" refused");
            text.number(u64::from(refused));
            text.line_end();
        }
    }
    for ((host, &delivered), deliveries) in (0..).zip(&run.delivered).zip(&run.deliveries) {
        for delivery in &deliveries[..delivered] {
            write_delivery(text, host, delivery);
        }
    }
    text.word("copies");
    text.number(u64::from(run.copies));
    text.line_end();
}

fn write_delivery(text: &mut Text, host: u64, delivery: &Delivery) {
    let held = &delivery.held;
    text.word("host");
    text.number(host);
    text.word(" at");
    text.number(delivery.at.0);
    text.word(" stamp");
    text.number(held.stamp.0);
    text.word(" from");
    text.number(u64::from(held.source));
    text.word(" ");
    text.word(held.order.name());
    text.number(u64::from(held.order.image()));
    if let Order::Publish { share, .. } = held.order {
        text.number(u64::from(share));
    }
    text.line_end();
}
