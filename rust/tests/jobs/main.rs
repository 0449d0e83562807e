//! The library and the program against an implementation that is written apart from them, straight from the rules.
mod cases;
mod dea;
mod drawing;
mod function;
mod openssl;
mod program;
mod reference;
mod vectors;
