// Package agekeys opens and writes files of package agefile by the keys of filippo.io/age: X25519, ssh, and all others that have its
// interfaces, as plugins do. The keys are age's; the payload is the proved library's. This module is tested, not proved.
//
//	recipients, err := age.ParseRecipients(file)
//	w, err := agefile.Encrypt(dst, agekeys.Recipients(recipients...)...)
//
//	identities, err := age.ParseIdentities(file)
//	r, err := agefile.Decrypt(src, agekeys.Identities(identities...)...)
package agekeys

import (
	"errors"

	"filippo.io/age"
	"kudebafon.example/agefile"
)

// Recipients are those of age, for agefile.Encrypt.
func Recipients(of ...age.Recipient) []agefile.Recipient {
	var all []agefile.Recipient
	for _, it := range of {
		all = append(all, recipient{it})
	}
	return all
}

// Identities are those of age, for agefile.Decrypt, OpenAt and DecryptTo.
func Identities(of ...age.Identity) []agefile.Identity {
	var all []agefile.Identity
	for _, it := range of {
		all = append(all, identity{it})
	}
	return all
}

type recipient struct{ of age.Recipient }

func (r recipient) Wrap(fileKey []byte) ([]agefile.Stanza, error) {
	stanzas, err := r.of.Wrap(fileKey)
	var all []agefile.Stanza
	for _, it := range stanzas {
		all = append(all, agefile.Stanza(*it))
	}
	return all, err
}

type identity struct{ of age.Identity }

func (i identity) Unwrap(stanzas []agefile.Stanza) ([]byte, error) {
	var all []*age.Stanza
	for _, it := range stanzas {
		theirs := age.Stanza(it)
		all = append(all, &theirs)
	}
	fileKey, err := i.of.Unwrap(all)
	if errors.Is(err, age.ErrIncorrectIdentity) {
		return nil, agefile.ErrWrongKey
	}
	return fileKey, err
}
