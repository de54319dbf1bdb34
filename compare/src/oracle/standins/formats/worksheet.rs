//! Stand-in: worksheets are not compared.
