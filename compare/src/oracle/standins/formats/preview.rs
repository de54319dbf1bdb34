//! Stand-in: previews are not compared.
