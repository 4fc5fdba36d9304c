//! The parameters of the profiles, and those that a seal is written and checked under.

use crate::raw;

/// k, how many queries a check makes, and the base domain.
///
/// ```
/// use dequmlo::Parameters;
/// let balanced = Parameters::named("balanced").unwrap();
/// assert_eq!((balanced.k, balanced.queries), (2, 40));
/// assert_eq!(balanced.domain, b"magnetar/pcs/balanced");
/// assert_eq!(Parameters::named("unheard-of"), None);
/// ```
#[derive(Clone, Debug, PartialEq, Eq)]
pub struct Parameters {
    /// The codeword has 2^k blocks of the table's length.
    pub k: usize,
    /// How many positions a check asks for.
    pub queries: usize,
    /// The base domain.
    pub domain: Vec<u8>,
}

impl Parameters {
    /// The names that [`Parameters::named`] knows.
    ///
    /// ```
    /// use dequmlo::Parameters;
    /// assert!(Parameters::NAMES.iter().all(|name| Parameters::named(name).is_some()));
    /// ```
    pub const NAMES: [&'static str; 6] = [
        "default",
        "fastchunk",
        "balanced",
        "compactwrap",
        "deepwrap",
        "firstdefault",
    ];

    /// The parameters of a profile by its name.
    #[must_use]
    pub fn named(name: &str) -> Option<Parameters> {
        match name {
            "default" => Some(Parameters::default()),
            "fastchunk" => Some(Parameters::fastchunk()),
            "balanced" => Some(Parameters::balanced()),
            "compactwrap" => Some(Parameters::compactwrap()),
            "deepwrap" => Some(Parameters::deepwrap()),
            "firstdefault" => Some(Parameters::firstdefault()),
            _ => None,
        }
    }

    /// k 1, 40 queries.
    #[must_use]
    pub fn fastchunk() -> Parameters {
        of(unsafe { raw::dequmlo_fastchunk() })
    }

    /// k 2, 40 queries.
    #[must_use]
    pub fn balanced() -> Parameters {
        of(unsafe { raw::dequmlo_balanced() })
    }

    /// k 3, 20 queries.
    #[must_use]
    pub fn compactwrap() -> Parameters {
        of(unsafe { raw::dequmlo_compactwrap() })
    }

    /// k 4, 14 queries.
    #[must_use]
    pub fn deepwrap() -> Parameters {
        of(unsafe { raw::dequmlo_deepwrap() })
    }

    /// k 1, 40 queries, and the default's domain: what the default was before version 0.4.0.
    ///
    /// ```
    /// use dequmlo::Parameters;
    /// let (first, now) = (Parameters::firstdefault(), Parameters::default());
    /// assert_eq!((first.k, now.k), (1, 2));
    /// assert_eq!((first.queries, &first.domain), (now.queries, &now.domain));
    /// ```
    #[must_use]
    pub fn firstdefault() -> Parameters {
        of(unsafe { raw::dequmlo_firstdefault() })
    }

    /// The parameters under which a seal is checked: those of the profile that it names. Where it names none, those of `firstdefault` if it is
    /// older than version 0.4.0, else the default's. None where no profile has this name. A seal that names k and a base domain itself is
    /// checked under these, and needs no such answer.
    ///
    /// ```
    /// use dequmlo::Parameters;
    /// // A seal that names nothing and was made when the default had k 1; and one that was made since.
    /// assert_eq!(Parameters::of_seal(None, true), Some(Parameters::firstdefault()));
    /// assert_eq!(Parameters::of_seal(None, false), Some(Parameters::default()));
    /// // What a seal names counts, however old it is.
    /// for older in [false, true] {
    ///     assert_eq!(Parameters::of_seal(Some("deepwrap"), older), Some(Parameters::deepwrap()));
    ///     assert_eq!(Parameters::of_seal(Some("unheard-of"), older), None);
    /// }
    /// ```
    #[must_use]
    pub fn of_seal(named: Option<&str>, older: bool) -> Option<Parameters> {
        match named {
            Some(name) => Parameters::named(name),
            None => Some(Parameters::unnamed(older)),
        }
    }

    /// The parameters under which a seal is checked that names no profile; see [`Parameters::of_seal`].
    #[must_use]
    pub fn unnamed(older: bool) -> Parameters {
        of(unsafe { raw::dequmlo_unnamed_parameters(u32::from(older)) })
    }
}

impl Default for Parameters {
    /// k 2, 40 queries: what a seal is written under whose writer names no profile.
    fn default() -> Parameters {
        of(unsafe { raw::dequmlo_default_parameters() })
    }
}

fn of(p: raw::Parameters) -> Parameters {
    Parameters {
        k: p.k,
        queries: p.queries,
        domain: p.domain[..p.length].to_vec(),
    }
}
