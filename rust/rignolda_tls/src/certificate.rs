//! What the files of certificates and of keys have, and what is wrong with them.
use crate::{read_file, Maker, Tls};
use openssl::asn1::{Asn1Time, Asn1TimeRef};
use openssl::error::ErrorStack;
use openssl::pkey::{PKey, Private};
use openssl::ssl::SslRef;
use openssl::stack::Stack;
use openssl::x509::store::{X509StoreBuilder, X509StoreRef};
use openssl::x509::{X509Ref, X509StoreContext, X509VerifyResult, X509};
use std::path::Path;
use std::time::Duration;

/// The longest file of certificates or of a key.
const PEM_BYTES: usize = 1 << 20;
/// From how many days before its end on a certificate is warned of.
const DAYS: u32 = 30;

/// What is wrong with one of the files of a [`Tls`].
#[derive(Clone, Debug, PartialEq, Eq)]
pub struct Fault {
    pub file: &'static str,
    pub text: String,
    /// Whether all works now, and may not later.
    pub is_warning: bool,
}

impl Tls {
    /// The files, each with its name.
    pub fn files(&self) -> [(&'static str, &Path); 3] {
        let Tls { certificate, key, authority } = self;
        [("certificate", certificate), ("key", key), ("authority", authority)]
    }

    /// What is wrong with the files for an agent of this name, of those that it `may` read.
    pub fn faults(&self, name: &str, may: [bool; 3]) -> Vec<Fault> {
        let mut faults = Vec::new();
        let mut say = |file, is_warning, text| faults.push(Fault { file, text, is_warning });
        // (what is no file, as a pipe, is not even opened)
        let pem = |at: usize| may[at].then(|| read(self.files()[at].1).ok())?;
        let certificates = |at: usize| X509::stack_from_pem(&pem(at)?).ok();
        let [own, authority] = [0, 2].map(|at| certificates(at).unwrap_or_default());
        let key = private_key(&pem(1).unwrap_or_default());
        let is_bad = [own.is_empty(), key.is_err(), authority.is_empty()];
        for (at, (file, _)) in self.files().into_iter().enumerate() {
            if is_bad[at] && may[at] {
                say(file, false, "nothing in it can be used".into());
            }
        }
        let times = (Asn1Time::days_from_now(0), Asn1Time::days_from_now(DAYS));
        let ([leaf, others @ ..], (Ok(now), Ok(soon))) = (&own[..], times) else { return faults };
        let (begin, end) = (leaf.not_before(), leaf.not_after());
        let is_out = end < now || begin > now;
        let word = if end < now { "has expired" } else { "is not yet valid" };
        if is_out || end < soon {
            let word = if is_out { word } else { "expires soon" };
            let text = format!("it {word}: it is valid from {begin} to {end}");
            say("certificate", !is_out, text);
        }
        let last = authority.iter().max_by_key(|it| unix_time(it.not_after()));
        let last = last.map(|it| it.not_after()).filter(|end| **end < soon);
        if let Some(end) = last {
            let is_out = *end < now;
            let word = if is_out { "has expired" } else { "expires soon" };
            say("authority", !is_out, format!("it {word}: it is valid to {end}"));
        }
        if pem(2).is_some_and(|it| has_revoked(&it)) {
            say("authority", false, REVOKED.into());
        }
        if !names(leaf).iter().any(|it| it == name) {
            say("certificate", false, format!("no DNS name of its SAN is `{name}`"));
        }
        if key.is_ok_and(|it| !leaf.public_key().is_ok_and(|own| own.public_eq(&it))) {
            say("key", false, "it is the key of another certificate".into());
        }
        let why = unsigned(leaf, others, &authority).ok().flatten();
        if let Some(why) = why.filter(|_| !is_out && !authority.is_empty()) {
            say("certificate", false, format!("`authority` did not sign it: {why}"));
        }
        // (whatever else an agent would refuse, as a key that is too short)
        if may == [true; 3] && faults.iter().all(|it| it.is_warning) {
            let why = Maker::new(Some(self), Duration::from_secs(1)).err();
            let file = "certificate";
            faults.extend(why.map(|it| Fault { file, text: it.to_string(), is_warning: false }));
        }
        faults
    }
}

/// Why a file of authorities is refused that has lists of revoked certificates: nobody would look
/// at them.
pub(crate) const REVOKED: &str =
    "it has a list of revoked certificates, which do not count: take their names out of `children`";

/// Whether a file of authorities has lists of revoked certificates too.
pub(crate) fn has_revoked(pem: &[u8]) -> bool {
    let word = b"-----BEGIN X509 CRL-----";
    pem.windows(word.len()).any(|it| it == word)
}

/// Why a certificate does not hold by the authorities of a store.
pub(crate) fn distrusted(ssl: &SslRef, store: &X509StoreRef) -> Result<(), String> {
    let chain = ssl.verified_chain().map_or(Vec::new(), |all| all.iter().collect());
    let (Some(leaf), Ok(mut others)) = (chain.first(), Stack::new()) else {
        return Err("it has no certificate".into());
    };
    // (of what it was verified by before nothing counts but what lies between)
    chain[1..].iter().for_each(|it| drop(others.push(it.to_owned().to_owned())));
    let verified = X509StoreContext::new()
        .and_then(|mut it| it.init(store, leaf, &others, |it| Ok((it.verify_cert()?, it.error()))));
    match verified {
        Ok((true, _)) => Ok(()),
        Ok((false, why)) => Err(format!("its certificate {}", unverified(why))),
        Err(_) => Err("its certificate cannot be verified".into()),
    }
}

/// Why no certificate of this authority signed this one, over these between them.
fn unsigned(
    leaf: &X509,
    between: &[X509],
    authority: &[X509],
) -> Result<Option<&'static str>, ErrorStack> {
    let (mut store, mut others) = (X509StoreBuilder::new()?, Stack::new()?);
    authority.iter().try_for_each(|it| store.add_cert(it.clone()))?;
    between.iter().try_for_each(|it| others.push(it.clone()))?;
    X509StoreContext::new()?.init(&store.build(), leaf, &others, |it| {
        Ok((!it.verify_cert()?).then(|| it.error().error_string()))
    })
}

/// The bytes of a file; what cannot be read is said in the words of the system.
pub(crate) fn read(path: &Path) -> Result<Vec<u8>, String> {
    read_file(path, PEM_BYTES, "it").map_err(|e| format!("{}: {e}", path.display()))
}

pub(crate) fn private_key(pem: &[u8]) -> Result<PKey<Private>, ErrorStack> {
    // (nobody is there to be asked for a word that opens it)
    PKey::private_key_from_pem_callback(pem, |_| Ok(0))
}

/// Seconds since 1970.
pub fn unix_time(time: &Asn1TimeRef) -> i64 {
    let since = Asn1Time::from_unix(0).and_then(|zero| zero.diff(time));
    since.map_or(0, |it| i64::from(it.days) * 86_400 + i64::from(it.secs))
}

/// What OpenSSL found wrong last, without the places in its sources.
pub(crate) fn reason(errors: &ErrorStack) -> Option<&'static str> {
    errors.errors().last()?.reason()
}

/// The DNS names of a certificate: no other name counts.
pub(crate) fn names(certificate: &X509Ref) -> Vec<String> {
    let all = certificate.subject_alt_names();
    all.iter().flatten().filter_map(|name| name.dnsname().map(str::to_owned)).collect()
}

/// Why a certificate does not count, in words of an operator.
pub(crate) fn unverified(why: X509VerifyResult) -> &'static str {
    match why.as_raw() {
        9 => "is not yet valid",
        10 => "has expired",
        2 | 7 | 18..=21 => "is of another authority",
        22 | 25 => "has too many authorities above it",
        _ => why.error_string(),
    }
}
