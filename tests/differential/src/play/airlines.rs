//! Pushes by list among the other calls.

use reference::table::PUSH;

use super::Play;
use crate::airlines;
use crate::common::list_texts;
use crate::common::row::Note;

impl Play<'_> {
    /// A push of this call's words by any list, which has the say about the end. By the row it is the begin of that
    /// push; with a fault of the list there is none.
    pub(super) fn push_by_list(&mut self, task: u32, call: Note) {
        let list = airlines::any_list(self.random);
        let push = list_texts::read(&list).map(|ends| Note {
            operation: PUSH,
            side: ends.of(call.tag()),
            ..call
        });
        let wanted = push.and_then(|push| self.row.begin(task, push).map_err(|number| (number, 0)));
        let words = [call.digit, call.argument];
        let given = self.both.push_by_list(&list, task, call.lane, words);
        assert_eq!(given, wanted, "a push by list");
        if let Ok(push) = push {
            self.begun(task, push, given.map_err(|(number, _)| number));
        }
        self.check();
    }
}
