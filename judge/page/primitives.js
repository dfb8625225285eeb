// Whole numbers: a number up to 2^53, beyond it a BigInt.

//Provides: whole_of
function whole_of(z) {
  return z >= -9007199254740991 && z <= 9007199254740991 ? Number(z) : z;
}

//Provides: whole_add
//Requires: whole_of
function whole_add(x, y) {
  var z = typeof x === "number" && typeof y === "number" ? x + y : NaN;
  return z >= -9007199254740991 && z <= 9007199254740991 ? z : whole_of(BigInt(x) + BigInt(y));
}

//Provides: whole_sub
//Requires: whole_of
function whole_sub(x, y) {
  var z = typeof x === "number" && typeof y === "number" ? x - y : NaN;
  return z >= -9007199254740991 && z <= 9007199254740991 ? z : whole_of(BigInt(x) - BigInt(y));
}

//Provides: whole_mul
//Requires: whole_of
function whole_mul(x, y) {
  var z = typeof x === "number" && typeof y === "number" ? x * y : NaN;
  return z >= -9007199254740991 && z <= 9007199254740991 ? z + 0 : whole_of(BigInt(x) * BigInt(y));
}

// Rounded down; 0 where the divisor is 0.
//Provides: whole_div
//Requires: whole_of
function whole_div(x, y) {
  if (y === 0) return 0;
  if (typeof x === "number" && typeof y === "number") {
    var r = x % y, q = (x - r) / y;
    return (r !== 0 && (r < 0) !== (y < 0) ? q - 1 : q) + 0;
  }
  x = BigInt(x);
  y = BigInt(y);
  var z = x / y, rest = x % y;
  return whole_of(rest != 0 && (rest < 0) !== (y < 0) ? z - BigInt(1) : z);
}

//Provides: whole_compare
function whole_compare(x, y) {
  return x < y ? -1 : x > y ? 1 : 0;
}

//Provides: whole_to_string
//Requires: caml_string_of_jsbytes
function whole_to_string(x) {
  return caml_string_of_jsbytes(String(x));
}

// The worker's files (worker.js): their sizes, their bytes, and to whom the judge is given.

//Provides: page_size
function page_size(file) {
  return globalThis.page.size(file);
}

//Provides: page_byte
function page_byte(file, place) {
  return globalThis.page.byte(file, place);
}

//Provides: page_give
//Requires: caml_jsbytes_of_string
function page_give(judge) {
  globalThis.page.judge = function () {
    return caml_jsbytes_of_string(judge(0));
  };
}
