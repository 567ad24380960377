//! *Check*: refusals 1 to 7, the lowest number first, each over the whole
//! sheet (document 01, When the desk says no).

use super::boards::Boards;
use super::crc::crc_of_sheet;
use super::header::Header;
use super::{operations, requests};
use crate::layout::{header as at, word};
use jamturret::lent::Answer;

pub fn check(sheet: &[u8]) -> Answer {
    match refusal(sheet) {
        Ok(()) => Answer::SUCCESS,
        Err(answer) => answer,
    }
}

fn refusal(sheet: &[u8]) -> Result<(), Answer> {
    let header = Header::read(sheet).map_err(|number| Answer::refusal(number, 0))?;
    if crc_of_sheet(sheet) != word(sheet, at::CRC) {
        return Err(Answer::refusal(4, 0));
    }
    let boards = Boards::read(sheet, &header).map_err(|place| Answer::refusal(5, place))?;
    operations::check(sheet, &header, &boards).map_err(|place| Answer::refusal(6, place))?;
    requests::check(sheet, &header, &boards).map_err(|place| Answer::refusal(7, place))
}
