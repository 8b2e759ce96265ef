//! The inputs of the three vapour losses.

/// A way in which vapour is lost, with its measurements.
#[derive(Clone, Copy, Debug, PartialEq)]
pub enum Form {
    /// Form 1: what clings to the wall of a tank whose roof floats.
    FloatingRoof {
        /// The tank's diameter in m, 1 to 1,000.
        diameter: f64,
        /// The substance's content in weight percent, 0 to 100.
        content: f64,
        /// The kL drawn, 0 to 10^9.
        drawn: f64,
    },
    /// Form 2: what is pushed out while a tank with a fixed roof is filled.
    FixedRoof {
        /// The volume filled in m³, 0 to 10^9.
        volume: f64,
        /// The substance's partial pressure in Pa, 0 to 10^9.
        partial: f64,
        /// The tank's pressure in Pa, 1 to 10^9.
        tank: f64,
        /// The share that escapes, 0 to 1.
        share: f64,
    },
    /// Form 3: a filling station.
    Station {
        /// The kL received, 0 to 10^9.
        received: f64,
        /// The kg lost for each kL received, 0 to 10^9.
        filling: f64,
        /// The kL dispensed, 0 to 10^9.
        dispensed: f64,
        /// The kg lost for each kL dispensed, 0 to 10^9.
        fuelling: f64,
    },
}

impl Form {
    /// The form's number, 1 to 3.
    #[inline]
    pub const fn number(self) -> u8 {
        match self {
            Form::FloatingRoof { .. } => 1,
            Form::FixedRoof { .. } => 2,
            Form::Station { .. } => 3,
        }
    }

    /// The floats w, u, p and q of a post, in that order.
    #[inline]
    pub const fn floats(self) -> [f64; 4] {
        match self {
            Form::FloatingRoof {
                diameter,
                content,
                drawn,
            } => [diameter, content, drawn, 0.0],
            Form::FixedRoof {
                volume,
                partial,
                tank,
                share,
            } => [volume, partial, tank, share],
            Form::Station {
                received,
                filling,
                dispensed,
                fuelling,
            } => [received, filling, dispensed, fuelling],
        }
    }
}
