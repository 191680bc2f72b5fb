//! The order of records: which may come after those read so far.

use crate::records::{Batch, Group, Kind};
use crate::state::{Place, State};

impl State {
    /// May a record of this kind come now?
    pub(crate) fn allows(&self, kind: Kind) -> bool {
        let in_header = matches!(self.place, Place::BatchHeader | Place::FixedDescription);
        match kind {
            Kind::FileHeader => self.place == Place::Start,
            Kind::BatchHeader(_) => matches!(self.place, Place::FileHeader | Place::BatchTrailer),
            Kind::FixedDescription => in_header && self.fixed < Batch::MAX_DESCRIPTIONS,
            Kind::OrderingParty => in_header,
            Kind::Transaction => {
                self.place == Place::OrderingParty || self.in_item() && self.name_settled()
            }
            Kind::BatchTrailer => self.in_item() && self.name_settled(),
            Kind::FileTrailer => self.place == Place::BatchTrailer,
            _ => match self.group {
                Group::Payments => self.allows_in_payment(kind),
                Group::Debits => self.allows_in_debit(kind),
            },
        }
    }

    /// 0100, then 0150 at most once, 0160s, 0170, 0173.
    fn allows_in_payment(&self, kind: Kind) -> bool {
        match kind {
            Kind::Reference => self.place == Place::Transaction,
            Kind::Description => self.before_name() && self.description_left(),
            Kind::BeneficiaryName => self.unchecked && self.before_name(),
            Kind::BeneficiaryCity => self.place == Place::Name,
            _ => false,
        }
    }

    /// 0100, then 0110, 0113, 0150 at most once, 0160s.
    fn allows_in_debit(&self, kind: Kind) -> bool {
        match kind {
            Kind::PayerName => self.unchecked && self.place == Place::Transaction,
            Kind::PayerCity => self.place == Place::Name,
            Kind::Reference => {
                matches!(self.place, Place::Transaction | Place::Name | Place::City)
                    && self.name_settled()
            }
            Kind::Description => self.in_item() && self.name_settled() && self.description_left(),
            _ => false,
        }
    }

    /// The last record was 0100, or one that may stand between an 0100 and
    /// the name of a payment.
    fn before_name(&self) -> bool {
        matches!(self.place, Place::Transaction | Place::Reference | Place::Description)
    }

    fn in_item(&self) -> bool {
        self.before_name() || matches!(self.place, Place::Name | Place::City)
    }

    /// The name is there, or isn't to be.
    fn name_settled(&self) -> bool {
        self.named || !self.unchecked
    }

    fn description_left(&self) -> bool {
        self.own < Batch::MAX_DESCRIPTIONS - u8::from(self.referenced)
    }
}
