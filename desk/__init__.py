"""The front end of Fireboxer: what people call and read.

The proved programs do all settlement; no figure of a settlement is computed here."""
