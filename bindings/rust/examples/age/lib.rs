//! Keys of the crate `age` for files of `agefile`: of age-keygen, of ssh and of plugins.

use age_core::secrecy::ExposeSecret;
use agefile::{FileKey, Stanza};
use std::io;

/// An identity of `age`.
pub struct Identity<T>(pub T);

impl<T: age::Identity + Sync> agefile::Identity for Identity<T> {
    fn unwrap_stanza(&self, stanza: &Stanza) -> Option<io::Result<FileKey>> {
        let Stanza { tag, args, body } = stanza.clone();
        let found = self.0.unwrap_stanza(&age_core::format::Stanza { tag, args, body })?;
        Some(found.map(|it| FileKey::new(*it.expose_secret())).map_err(io::Error::other))
    }
}

/// Recipients of `age`, which must be the only ones of a file: some may not stand beside others.
pub struct Recipients<'a>(pub &'a [&'a dyn age::Recipient]);

impl agefile::Recipient for Recipients<'_> {
    fn wrap_file_key(&self, file_key: &FileKey) -> io::Result<Vec<Stanza>> {
        let key = age_core::format::FileKey::new(Box::new(*file_key.expose()));
        let (mut stanzas, mut first) = (Vec::new(), None);
        for it in self.0 {
            let (made, labels) = it.wrap_file_key(&key).map_err(io::Error::other)?;
            if *first.get_or_insert_with(|| labels.clone()) != labels {
                return Err(io::Error::other("these recipients may not be of one file"));
            }
            stanzas.extend(made);
        }
        let ours =
            |it: age_core::format::Stanza| Stanza { tag: it.tag, args: it.args, body: it.body };
        Ok(stanzas.into_iter().map(ours).collect())
    }
}
