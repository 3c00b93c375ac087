//! `lookup LOG [after=N] linear=A`: what is usable at an address after an event.

use crate::json::Json;
use crate::log::Log;
use crate::show::{line, object, run_to};
use crate::words::Words;
use crate::{print, Failure, Found};
use skuldrefn::Address;

pub fn lookup(words: &Words) -> Found {
    let width = words.settings.linear_width;
    let log = Log::read(&words.logs[0], width)?;
    let at = run_to(&log, words)?;
    let address = words.address().map_err(Failure::new)?;
    let usable = at.run.usable(address);
    let (sort, number) = match address {
        Address::Linear(number) => ("linear", number),
        Address::GuestPhysical(number) => ("guest-physical", number),
    };
    if words.flag("--json") {
        let mappings = usable.iter().map(|mapping| object(width, *mapping));
        let json = at
            .json(width)
            .text(sort, &format!("{number:#x}"))
            .with("usable", Json::list(mappings))
            .end();
        print(&format!("{json}\n"))?;
    } else {
        let mut text = at.words(width);
        for mapping in &usable {
            text += &line(width, *mapping);
        }
        let count = usable.len();
        text += &format!("usable at {sort} address {number:#x}: {count}\n");
        print(&text)?;
    }
    Ok(at.tell_stop(&log, "lookup"))
}
