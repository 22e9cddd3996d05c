#!/usr/bin/env python3
"""Writes cases.txt, the texts that `lock_comments` is tried on.

First come cases made by hand, in groups, each with a name that says what it is
about; then random ones from a fixed seed, so that the file is the same on
every run.  The form of the file is told at the top of model.py, which works
out what the program ought to print for each case.

    python3 gen.py [FILE]       (cases.txt beside this file, if not given)
"""

import os
import random
import re
import sys

lines = []
names = set()


def group(title):
    lines.append("")
    lines.append("# " + title)


def to_bytes(part):
    return part.encode("utf-8") if isinstance(part, str) else part


def field(part):
    """A part is a string, bytes, or a pair of one of these and a count."""
    if isinstance(part, tuple):
        return to_bytes(part[0]).hex().upper() + "*" + str(part[1])
    return to_bytes(part).hex().upper()


def case(name, *parts):
    assert re.fullmatch("[a-z0-9_]+", name), name
    assert name not in names, name
    names.add(name)
    fields = []
    for part in parts:
        made = field(part)
        if made != "":
            fields.append(made)
    lines.append(" ".join([name] + fields))


LS = "\u2028"
PS = "\u2029"

# ---------------------------------------------------------------------------
group("the example of the listing")
case("example", '{ // lock\n"a": /*! x */ 1 }\n')

# ---------------------------------------------------------------------------
group("texts with next to nothing in them")
case("empty")
case("one_space", " ")
case("only_spaces_and_tabs", " \t  \t\t ")
case("only_line_feed", "\n")
case("only_line_ends", "\n\r\r\n\n")
case("only_line_comment", "// x")
case("only_line_comment_ended", "// x\n")
case("only_block_comment", "/* x */")
case("only_block_comment_and_line_feed", "/* x */\n")
case("only_empty_line_comment", "//")
case("only_empty_block_comment", "/**/")
case("only_one_token", "1")
case("only_one_brace", "{")
case("all_structural_characters", "{}[]:,")
case("structural_characters_with_gaps", " { } [ ] : , ")
case("unbalanced_is_read_all_the_same", "]}:,,{[")
case("two_values", "1 2")
case("real_settings",
     '// Settings of one lock\n{\n  "id": "n-17", // shown on the dock\n'
     '  /* seconds */ "open": 30,\n  "tries": [1, 2, 3 /* last */],\n'
     '  /** @preserve */\n  "on": true\n}\n')

# ---------------------------------------------------------------------------
group("where comments begin and end")
case("slash_alone", "/")
case("slash_alone_after_token", "1 /")
case("slash_before_letter", "/a")
case("slash_space_slash", "/ /")
case("slash_before_newline_star", "/\n*x*/")
case("block_closed_at_once", "/**/1")
case("block_of_one_star", "/***/1")
case("block_of_two_stars", "/****/1")
case("block_of_three_stars", "/*****/1")
case("block_slash_is_no_end", "/*/")
case("block_slash_star_slash", "/*/*/1")
case("block_slash_slash_star_slash", "/*//*/1")
case("block_star_space_slash", "/* * / */1")
case("block_stars_then_end", "/* x ***/1")
case("block_slashes_inside", "/* // x */1")
case("block_open_mark_inside", "/* /* x */1")
case("block_not_nested", "/* /* x */ */1")
case("block_second_end_mark_broken", "/* x */ */")
case("block_end_mark_alone", "*/")
case("block_end_mark_after_token", "1*/")
case("block_quote_inside", '/* " */"a"')
case("block_backslash_before_end", "/* \\*/1")
case("block_then_slash", "/* x *//1")
case("block_then_line_touching", "/*x*/// y\n1")
case("block_then_block_touching", "/*x*//*y*/1")
case("line_block_marks_inside", "// /* x\n1 */")
case("line_block_inside_not_opened", "// /* x\n1")
case("line_end_mark_inside", "// x */\n1")
case("line_many_slashes", "////// x\n1")
case("line_slash_at_end", "// x/\n1")
case("line_star_first", "//* x\n1")
case("line_star_slash", "//*/\n1")
case("line_backslash_at_end", "// x\\\n1")
case("line_quote_inside", '// "\n"a"')
case("line_ends_with_text", "1 // x")
case("line_ends_with_text_empty", "1 //")
case("line_lf", "// x\n1")
case("line_cr", "// x\r1")
case("line_crlf", "// x\r\n1")
case("line_lfcr", "// x\n\r1")
case("line_ls", "// x", LS, "1")
case("line_ps", "// x", PS, "1")
case("line_ls_ls", "// x", LS, LS, "1")
case("line_ps_then_comment", "// x", PS, "// y", PS, "1")
case("line_lf_ls", "// x\n", LS, "1")
case("line_cr_only_text_ends", "// x\r")
case("line_crlf_text_ends", "// x\r\n")
case("line_ls_text_ends", "// x", LS)
case("line_empty_lf", "//\n1")
case("line_empty_lines", "//\n//\n//")
case("line_vt_ff_nel_do_not_end_it", "// a\u000Bb\u000Cc\u0085d\u001Ee 1\n2")
case("line_irregular_inside_not_listed", "// \u00A0\uFEFF\u3000\n1")
case("line_e2_neighbours", "// \u2027\u202A\u20A8\u2068\u2128\n1")
case("line_e2_characters_at_text_end", "// \u20AC")
case("line_multibyte", "// \u00E9\u20AC\U0001F600\n1")
case("line_nul_inside", "// \u0000 x\n1")
case("block_lf", "/* a\nb */1")
case("block_cr", "/* a\rb */1")
case("block_crlf", "/* a\r\nb */1")
case("block_ls", "/* a", LS, "b */1")
case("block_ps", "/* a", PS, "b */1")
case("block_lf_only", "/*\n*/1")
case("block_lf_first", "/*\nx*/1")
case("block_lf_last", "/*x\n*/1")
case("block_ls_last", "/*x", LS, "*/1")
case("block_star_lf_slash", "/*x*\n/*/1")
case("block_star_ls_slash", "/*x*", LS, "/*/1")
case("block_star_before_lf", "/**\n*/1")
case("block_vt_ff_nel_are_no_lines", "/* a\u000Bb\u000Cc\u0085d */1")
case("block_irregular_inside_not_listed", "/* \u00A0\uFEFF\u3000 */1")
case("block_e2_neighbours", "/* \u2027\u202A\u20A8\u2068\u2128 */1")
case("block_e2_before_end", "/* \u20AC*/1")
case("block_multibyte", "/* \u00E9\u20AC\U0001F600 */1")
case("block_nul_inside", "/* \u0000 */1")
case("block_long", "/*", ("x", 300), "*/1")
case("line_long", "//", ("x", 300), "\n1")
case("block_lf_in_each_of_two", "/*\n*//*\n*/1")
case("html_open_is_no_comment", "<!-- x\n1")
case("html_close_is_no_comment", "--> x\n1")
case("hash_is_no_comment", "# x\n1")
case("hashbang_at_start", "#!/usr/bin/env lock\n1")
case("hashbang_alone", "#!")
case("hashbang_after_space", " #!x\n1")

group("the same marks at many distances, for searches that take several bytes at a time")
for n in list(range(1, 20)) + [23, 24, 25, 31, 32, 33, 63, 64, 65]:
    case("distance_%02d" % n,
         "//", ("a", n), "\n/*", ("a", n), "*/1//", ("a", n), LS, "/*", ("a", n), PS, ("a", n), "*/2//",
         ("a", n), "\u20AC\r/*", ("*", n), "\u20AC", ("a", n), "*/3/*", ("a", n), "*")

# ---------------------------------------------------------------------------
group("blocks that never end")
case("unended_after_token", "1 /*x")
case("unended_at_start", "/*")
case("unended_at_start_star", "/**")
case("unended_at_start_stars", "/***")
case("unended_slash", "/*/")
case("unended_slash_more", "/*/ x")
case("unended_with_lf", "1 /*x\ny")
case("unended_with_cr", "1 /*x\ry")
case("unended_with_ls", "1 /*x", LS, "y")
case("unended_with_ps_at_start", "/*", PS)
case("unended_lf_at_start", "/*\n")
case("unended_last_star", "1 /* x *")
case("unended_last_star_lf", "1 /* x\n*")
case("unended_star_lf_slash", "1 /* x *\n/")
case("unended_hides_tokens", "1 /* x, 2, 3")
case("unended_hides_broken", "1 /* @ ' %")
case("unended_hides_line_comment", "1 /* // x\n2")
case("unended_hides_spaces", "/* \u00A0\u2028\uFEFF")
case("unended_right_after_token", "1/*")
case("unended_after_colon", '"a":/*')
case("unended_after_line_comment", "1 // x\n/* y")
case("unended_after_block_at_start", "/*a*/ /*x")
case("unended_after_block_after_token", "1 /*a*/ /*x")
case("unended_after_block_and_newline", "1 /*a*/\n/*x")
case("unended_after_newline_and_block", "1\n/*a*/ /*x")
case("unended_after_legal_block", "1 /*! a */ /*x")
case("unended_after_space", "1 \u00A0/*x")
case("unended_after_broken_token", "@ /*x")
case("unended_multibyte", "/* \u20AC\U0001F600")

# ---------------------------------------------------------------------------
group("irregular spaces")
IRREGULAR = [0x0B, 0x0C, 0xA0, 0x1680] + list(range(0x2000, 0x200B)) + [
    0x202F, 0x205F, 0x3000, 0xFEFF, 0x2028, 0x2029]
for c in IRREGULAR:
    case("space_%04x_alone" % c, chr(c))
for c in IRREGULAR:
    case("space_%04x_between" % c, "1", chr(c), "2")
case("space_all_in_a_row", "".join(map(chr, IRREGULAR)))
case("space_all_between_tokens", ",".join(map(chr, IRREGULAR)))
case("space_bom_at_start", "\uFEFF{}")
case("space_bom_twice", "\uFEFF\uFEFF{}")
case("space_bom_in_the_middle", "{\uFEFF}")
case("space_bom_before_line_comment", "\uFEFF// x\n1")
case("space_bom_before_block_comment", "\uFEFF/* x */1")
case("space_bom_before_hashbang", "\uFEFF#!x\n1")
case("space_in_string_not_listed", '"\u00A0\u2028\u3000\uFEFF"')
case("space_crlf_is_regular", "1\r\n2")
case("space_is_no_newline_before_block", "1\u000B/*x*/")
case("space_ls_is_newline_before_block", "1\u2028/*x*/")
case("space_ps_is_newline_after_block", "1 /*x*/\u20292")
case("space_ls_after_block_at_start", "/*x*/\u20281")
case("space_between_comments", "/*a*/\u00A0/*b*/\u3000// c\n\u000B1")
NEAR_MISSES = [0x00, 0x01, 0x08, 0x0E, 0x1C, 0x1D, 0x1E, 0x1F, 0x7F, 0x80, 0x85,
               0x9F, 0xA1, 0xAD, 0x167F, 0x1681, 0x180E, 0x1FFF, 0x200B, 0x200C,
               0x200D, 0x200E, 0x200F, 0x2027, 0x202A, 0x202E, 0x2030, 0x205E,
               0x2060, 0x2FFF, 0x3001, 0xFEFE, 0xFF00, 0xFFFD, 0xFFFE, 0xFFFF,
               0x10000, 0x1F600, 0x12028, 0x10FFFF]
for c in NEAR_MISSES:
    case("no_space_%04x" % c, chr(c))
for c in (0x85, 0x180E, 0x200B, 0x2060):
    case("no_space_%04x_between" % c, "1", chr(c), "2")
    case("no_space_%04x_after_space" % c, "\u00A0", chr(c))

# ---------------------------------------------------------------------------
group("classes: line and block of the same content (l and b)")


def both(name, content):
    case("class_" + name + "_l", "//", content, "\n1")
    case("class_" + name + "_b", "/*", content, "*/1")


both("empty", "")
both("plain", " x ")
both("blanks", " \t \x0C")
case("class_blanks_lf_cr_b", "/* \n\r\t*/1")
both("legal", "!")
both("legal_more", "! keep")
both("legal_not_after_blank", " ! keep")
both("stars", "***")
both("stars_and_space", "* ")
both("jsdoc", "* x ")
both("jsdoc_star_last", "* x *")
both("jsdoc_license", "* @license MIT ")
both("jsdoc_preserve", "* x @preserve")
both("jsdoc_license_inside_word", "*x@licensed")
both("jsdoc_almost_license", "* @licens e ")
both("jsdoc_key", "* @__KEY__ ")
both("jsdoc_pure", "* @__PURE__ ")
both("jsdoc_vite", "*@vite")
both("jsdoc_not_after_blank", " * x")
both("jsdoc_blank_license", " * @license x")
case("class_jsdoc_lines_b", "/**\n * x\n */1")
case("class_jsdoc_lines_license_b", "/**\n * @license x\n */1")
both("legal_beats_license", "!@license")
both("key_at", "@__KEY__")
both("key_hash", "#__KEY__")
both("key_blanks", " \t@__KEY__\t ")
case("class_key_blanks_lf_b", "/*\n@__KEY__\r\n*/1")
both("key_ff", "\x0C#__KEY__\x0C")
both("key_vt_before", "\x0B@__KEY__")
both("key_vt_after", "@__KEY__\x0B")
both("key_vt_after_blank", " \x0B@__KEY__")
both("key_nel_before", "\u0085@__KEY__")
both("key_nel_after", "#__KEY__\u0085")
both("key_nbsp_both", "\u00A0@__KEY__\u00A0")
both("key_nbsp_vt_before", "\u00A0\x0B@__KEY__")
both("key_blank_nbsp_blank", " \u00A0 @__KEY__ \u3000 ")
both("key_1680_205f", "\u1680#__KEY__\u205F")
both("key_2000_200a", "\u2000@__KEY__\u200A")
both("key_202f", "\u202F@__KEY__\u202F")
both("key_bom_before", "\uFEFF@__KEY__")
both("key_bom_after", "@__KEY__\uFEFF")
both("key_200b_after", "@__KEY__\u200B")
both("key_180e_before", "\u180E@__KEY__")
both("key_1c_after", "@__KEY__\x1C")
both("key_1f_after", "@__KEY__\x1F")
case("class_key_ls_ps_b", "/*", LS, "@__KEY__", PS, "*/1")
case("class_key_ls_after_l", "//@__KEY__", LS, "1")
both("key_more_after", "@__KEY__x")
both("key_word_after", "@__KEY__ x")
both("key_twice", "@__KEY__ @__KEY__")
both("key_two_signs", "@#__KEY__")
both("key_at_at", "@@__KEY__")
both("key_no_sign", "__KEY__")
both("key_space_in_it", "@ __KEY__")
both("key_lower", "@__key__")
both("key_one_underscore", "@__KEY_")
both("key_license_after", "@__KEY__ @license")
both("key_letter_before", "\u00E9@__KEY__")
both("key_nbsp_word", "\u00A0x")
both("key_nbsp_no_sign", "\u00A0__KEY__")
both("key_nbsp_two_signs", "\u00A0@#__KEY__")
both("key_nbsp_word_after", "\u00A0@__KEY__ x")
both("key_nbsp_sign_alone", "\u00A0@")
both("at_alone", "@")
both("at_alone_blank_before", " \t@")
both("at_blank", "@ ")
both("at_other", "@foo")
both("at_other_preserve", "@foo @preserve")
both("at_at_license", "@@license")
both("hash_alone", "#")
both("hash_other", "#region")
both("hash_license", "#license")
both("hash_vite", "#vite")
both("vite", "@vite")
both("vite_ignore", " @vite-ignore ")
both("vite_license", "@vite @license")
both("vite_upper", "@Vite")
both("vite_no_at", "vite")
both("vite_cut", "@vit")
both("vite_after_nbsp", "\u00A0@vite")
both("license", "@license")
both("license_mit", " @license MIT ")
both("licensed", "@licensed")
both("licence_spelled_otherwise", "@licence")
both("license_upper", "@LICENSE")
both("license_no_at", "license")
both("license_inside", "Copyright x @license MIT")
both("license_at_the_end", "x @license")
both("license_inside_word", "mail@license")
both("license_after_nbsp", "\u00A0@license")
both("license_after_vt", "\x0B@license")
both("license_after_multibyte", "\u20AC @license")
both("license_cut", "x @licens")
both("license_space_in_it", "x @ license")
both("preserve", "@preserve")
both("preserve_inside", "x @preserve y")
both("preserve_at_the_end", "x@preserve")
both("preserve_cut", "x @preserv")
both("preserve_cut_then_license", "x @preserv @license")
both("preserve_after_at", "x @@@preserve")
both("webpack", "webpackIgnore: true")
both("webpack_blank", " webpackChunkName: \"x\" ")
both("webpack_one_capital", "webpackZ")
both("webpack_a", "webpackA")
both("webpack_alone", "webpack")
both("webpack_lower", "webpackignore")
both("webpack_space", "webpack Ignore")
both("webpack_digit", "webpack4")
both("webpack_at_sign", "webpack@")
both("webpack_bracket", "webpack[")
both("webpack_multibyte", "webpack\u00C9")
both("webpack_lower_license", "webpack @license")
both("webpack_capital_license", "webpackX @license")
both("webpack_upper_first", "WebpackIgnore")
both("turbopack", "turbopackIgnore: true")
both("turbopack_blank", "\t turbopackOptional: true")
both("turbopack_one_capital", "turbopackA")
both("turbopack_alone", "turbopack")
both("turbopack_lower", "turbopackignore")
both("turbopack_digit", "turbopack9")
both("turbopack_license", "turbopack @preserve")
both("turbopack_cut", "turbopac")
both("v8_ignore", "v8 ignore next")
both("v8_ignore_bare", "v8 ignore")
both("v8_ignored", "v8 ignored")
both("v8_cut", "v8 ignor")
both("v8_two_spaces", "v8  ignore")
both("v8_tab", "v8\tignore")
both("v8_upper", "V8 ignore")
both("v8_file", "v8 ignore file")
both("v8_file_blank", " v8 ignore file ")
both("v8_file_tab", "v8 ignore file\tx")
both("v8_file_ff", "v8 ignore file\x0Cx")
both("v8_file_vt", "v8 ignore file\x0Bx")
both("v8_file_nbsp", "v8 ignore file\u00A0x")
both("v8_file_dash", "v8 ignore file-x")
both("v8_files", "v8 ignore files")
both("v8_fil", "v8 ignore fil")
both("v8_two_spaces_file", "v8 ignore  file")
both("v8_file_words", "v8 ignore file -- x")
case("class_v8_file_lf_b", "/* v8 ignore file\nx */1")
case("class_v8_file_cr_b", "/* v8 ignore file\rx */1")
case("class_v8_file_ls_b", "/* v8 ignore file", LS, "x */1")
case("class_v8_file_cr_l", "// v8 ignore file\r\n1")
both("v8_license", "v8 ignore @license")
both("v8_other_license", "v8 @license")
both("c8_ignore", "c8 ignore start")
both("c8_file", " c8 ignore file ")
both("c8_other_license", "c8 @license")
both("node_coverage", "node:coverage disable")
both("node_coverage_file", "node:coverage ignore file")
both("node_covered", "node:coveraged")
both("node_cut", "node:coverag")
both("node_license", "node @preserve")
both("istanbul", "istanbul ignore next")
both("istanbul_bare", "istanbul ignore")
both("istanbul_file", "istanbul ignore file")
both("istanbul_file_blank", " istanbul ignore file ")
both("istanbul_filed", "istanbul ignore filed")
both("istanbul_cut", "istanbul ignor")
both("istanbul_license", "istanbul @license")
both("coverage_not_first", "x v8 ignore")
both("pure_at", "@__PURE__")
both("pure_hash", "#__PURE__")
both("pure_blank", " @__PURE__ ")
both("pure_more", "#__PURE__x y")
both("pure_license", "@__PURE__ @license")
both("pure_cut", "@__PURE_")
both("pure_one_underscore", "@_PURE__")
both("pure_lower", "@__pure__")
both("pure_no_sign", "__PURE__")
both("pure_two_signs", "@#__PURE__")
both("pure_space_in_it", "# __PURE__")
both("pure_after_nbsp", "\u00A0@__PURE__")
both("pure_not_first", "x @__PURE__")
both("nse_at", "@__NO_SIDE_EFFECTS__")
both("nse_hash", "#__NO_SIDE_EFFECTS__")
both("nse_blank", "\t#__NO_SIDE_EFFECTS__ ")
both("nse_more", "@__NO_SIDE_EFFECTS__y")
both("nse_license", "#__NO_SIDE_EFFECTS__ @license")
both("nse_cut", "@__NO_SIDE_EFFECTS_")
both("nse_no_sign", "__NO_SIDE_EFFECTS__")
both("nse_cut_license", "#__NO_SIDE @license")
case("class_all_in_one_text",
     "/*x*//*!*//** j *//** @license *//*#__PURE__*//*#__NO_SIDE_EFFECTS__*/"
     "/*@__KEY__*//*webpackX*//*@vite*//*turbopackX*//*v8 ignore*//*v8 ignore file*/1")
case("class_all_as_lines",
     "//x\n//!\n//* @license\n//#__PURE__\n//@__NO_SIDE_EFFECTS__\n//@__KEY__\n"
     "//webpackX\n//@vite\n//turbopackX\n//c8 ignore\n//istanbul ignore file\n1")

group("contents worked out by hand")
both("hand_jsdoc_legal", "* @preserve")
both("hand_jsdoc", "* x")
both("hand_key_between_white_space", "\u00a0@__KEY__\u0085")
both("hand_key_after_vt", "\x0b@__KEY__")
both("hand_key_before_vt", "@__KEY__\x0b")
both("hand_key_after_bom", "\ufeff@__KEY__")
both("hand_vite", "@vitex")
both("hand_license_later", "x @license")
both("hand_webpack_small", "webpackx")
both("hand_turbopack", "turbopackA")
both("hand_ignore_files", "v8 ignore files")
both("hand_ignore_file_tab", "istanbul ignore file\t")

# ---------------------------------------------------------------------------
group("attaching: line comments")
case("line_same_line", "1 // x\n2")
case("line_touching_token", "1// x\n2")
case("line_next_line", "1\n// x\n2")
case("line_next_line_cr", "1\r// x\n2")
case("line_next_line_ls", "1", LS, "// x\n2")
case("line_at_start", "// x\n1 // y\n2")
case("line_two_in_a_row", "1 // x\n// y\n2")
case("line_three_in_a_row", "1 // x\n// y\n// z\n2")
case("line_two_with_empty_line", "1 // x\n\n// y\n2")
case("line_crlf_two", "1 // x\r\n// y\r\n2")
case("line_after_colon", '"a": // x\n1')
case("line_after_colon_touching", '"a"://x\n1')
case("line_after_colon_two", '"a": // x\n// y\n1')
case("line_after_colon_next_line", '"a":\n// x\n1')
case("line_after_colon_to_the_end", '"a": // x')
case("line_after_colon_to_the_end_lf", '"a": // x\n')
case("line_after_brace", "{ // x\n}")
case("line_after_bracket", "[ // x\n]")
case("line_after_comma", "1, // x\n2")
case("line_after_closing_brace", "{} // x\n1")
case("line_after_closing_bracket", "[] // x\n1")
case("line_after_string", '"a" // x\n:1')
case("line_after_true", "true // x\n,")
case("line_after_false", "false // x\n,")
case("line_after_null", "null // x\n,")
case("line_after_float", "1.5 // x\n,")
case("line_after_exponent", "1e5 // x\n,")
case("line_after_negative_exponent", "1e-5 // x\n,")
case("line_legal_same_line", "1 //! x\n2")
case("line_license_same_line", "1 // @license\n2")
case("line_pure_same_line", "1 // @__PURE__\n2")
case("line_nse_same_line", "1 // #__NO_SIDE_EFFECTS__\n2")
case("line_key_same_line", "1 // @__KEY__\n2")
case("line_webpack_same_line", "1 // webpackX\n2")
case("line_vite_same_line", "1 // @vite\n2")
case("line_turbopack_same_line", "1 // turbopackX\n2")
case("line_coverage_same_line", "1 // v8 ignore\n2")
case("line_coverage_file_same_line", "1 // v8 ignore file\n2")
case("line_legal_then_plain", "1 //! x\n// y\n2")
case("line_plain_then_legal", "1 // x\n//! y\n2")
case("line_legal_crlf", "1 //! x\r\n2")
case("line_legal_to_the_end", "1 //! x")
case("line_legal_lf_to_the_end", "1 //! x\n")
case("line_pure_to_the_end", "1 // @__PURE__")
case("line_to_the_end_after_newline", "1\n// x")
case("line_same_line_and_next_to_the_end", "1 // x\n// y")
case("line_start_only_two", "// x\n// y")
case("line_irregular_before", "1\u3000// x\n2")

group("attaching: blocks")
case("block_between_tokens", "1 /*x*/ 2")
case("block_touching_both", "1/*x*/2")
case("block_then_newline", "1 /*x*/\n2")
case("block_then_cr", "1 /*x*/\r2")
case("block_then_crlf", "1 /*x*/\r\n2")
case("block_then_ls", "1 /*x*/", LS, "2")
case("block_then_spaces_newline", "1 /*x*/ \t \n2")
case("block_then_irregular_newline", "1 /*x*/\u00A0\n2")
case("block_two_then_newline", "1 /*x*/ /*y*/\n2")
case("block_three_then_newline", "1 /*x*/ /*y*/ /*z*/\n2")
case("block_newline_block_newline", "1 /*x*/\n/*y*/\n2")
case("block_newline_block_token", "1 /*x*/\n/*y*/2")
case("block_after_newline", "1\n/*x*/2")
case("block_after_newline_then_newline", "1\n/*x*/\n2")
case("block_both_flags", "1\n/*x*/\n\n2")
case("block_no_flags", "1 /*x*/ 2")
case("block_two_after_newline", "1\n/*x*/ /*y*/ 2")
case("block_newline_between_two", "1 /*x*/\n\n/*y*/ 2")
case("block_at_start", "/*x*/1")
case("block_at_start_newline", "/*x*/\n1")
case("block_at_start_after_newline", "\n/*x*/1")
case("block_at_start_both", "\n/*x*/\n1")
case("block_two_at_start", "/*x*/ /*y*/\n1")
case("block_before_end", "1 /*x*/")
case("block_touching_before_end", "1/*x*/")
case("block_newline_before_end", "1 /*x*/\n")
case("block_newline_first_before_end", "1\n/*x*/")
case("block_newline_first_two_before_end", "1\n/*x*/ /*y*/")
case("block_newline_first_two_lf_before_end", "1\n/*x*/ /*y*/\n")
case("block_two_before_end", "1 /*x*/ /*y*/")
case("block_legal_before_end", "1 /*! x */")
case("block_plain_legal_before_end", "1 /*x*/ /*! y */")
case("block_legal_plain_before_end", "1 /*! x */ /*y*/")
case("block_plain_legal_newline_before_end", "1 /*x*/ /*! y */\n")
case("block_legal_plain_newline_before_end", "1 /*! x */ /*y*/\n")
case("block_alone_before_end", "/*x*/ ")
case("block_two_alone_before_end", "/*x*/ /*y*/")
case("block_newline_alone_before_end", "\n/*x*/\n")
case("block_after_colon", '"a": /*x*/ 1')
case("block_after_colon_newline", '"a": /*x*/\n1')
case("block_after_colon_end", '"a": /*x*/')
case("block_before_colon", '"a" /*x*/ : 1')
case("block_after_brace", "{ /*x*/ }")
case("block_after_brace_newline", "{ /*x*/\n}")
case("block_before_comma", "1 /*x*/, 2")
case("block_after_comma", "1, /*x*/ 2")
case("block_after_comma_newline", "1, /*x*/\n2")
case("block_legal_then_newline", "1 /*! x */\n2")
case("block_jsdoc_then_newline", "1 /** x */\n2")
case("block_jsdoc_legal_then_newline", "1 /** @license */\n2")
case("block_pure_then_newline", "1 /*#__PURE__*/\n2")
case("block_nse_then_newline", "1 /*#__NO_SIDE_EFFECTS__*/\n2")
case("block_key_then_newline", "1 /*@__KEY__*/\n2")
case("block_webpack_then_newline", "1 /*webpackX*/\n2")
case("block_vite_then_newline", "1 /*@vite*/\n2")
case("block_turbopack_then_newline", "1 /*turbopackX*/\n2")
case("block_coverage_then_newline", "1 /*c8 ignore*/\n2")
case("block_coverage_file_then_newline", "1 /*v8 ignore file*/\n2")
case("block_pure_before_end", "1 /*#__PURE__*/")
case("block_key_before_end", "1 /*@__KEY__*/")
case("block_jsdoc_before_end", "1 /** x */")
case("block_jsdoc_legal_before_end", "1 /** @license */")
case("block_plain_legal_newline", "1 /*x*/ /*! l */\n2")
case("block_legal_plain_newline", "1 /*! l */ /*x*/\n2")
case("block_pure_plain_newline", "1 /*#__PURE__*/ /*x*/\n2")
case("block_plain_pure_newline", "1 /*x*/ /*#__PURE__*/\n2")
case("block_legal_newline_plain_newline", "1 /*! l */\n/*x*/\n2")
case("block_many_lines_then_newline", "1 /*a\nb*/\n2")
case("block_many_lines_then_token", "1 /*a\nb*/ 2")
case("block_many_lines_before_end", "1 /*a\nb*/")
case("block_many_lines_then_block_end", "1 /*a\nb*/ /*c*/")
case("block_many_lines_at_start", "/*a\nb*/ /*c*/ 1")
case("block_irregular_is_no_line", "1 /*x*/\u000B/*y*/\u000C2")

group("attaching: blocks and line comments together")
case("mixed_block_then_line", "1 /*x*/ // y\n2")
case("mixed_block_touching_line", "1/*x*///y\n2")
case("mixed_two_blocks_then_line", "1 /*x*/ /*y*/ // z\n2")
case("mixed_legal_block_then_line", "1 /*! l */ // x\n2")
case("mixed_legal_block_then_line_end", "1 /*! l */ // x")
case("mixed_pure_block_then_line", "1 /*#__PURE__*/ // x\n2")
case("mixed_block_then_legal_line", "1 /*x*/ //! y\n2")
case("mixed_block_then_legal_line_end", "1 /*x*/ //! y\n")
case("mixed_block_then_line_after_colon", '"a": /*x*/ // y\n1')
case("mixed_block_then_line_after_colon_end", '"a": /*x*/ // y\n')
case("mixed_block_newline_line", "1 /*x*/\n// y\n2")
case("mixed_block_newline_line_end", "1 /*x*/\n// y")
case("mixed_line_then_block", "1 // x\n/*y*/ 2")
case("mixed_line_then_block_newline", "1 // x\n/*y*/\n2")
case("mixed_line_then_block_end", "1 // x\n/*y*/")
case("mixed_line_then_two_blocks_end", "1 // x\n/*y*/ /*z*/")
case("mixed_line_crlf_block_end", "1 // x\r\n/*y*/")
case("mixed_legal_line_then_block", "1 //! x\n/*y*/ 2")
case("mixed_legal_line_then_block_newline", "1 //! x\n/*y*/\n2")
case("mixed_legal_line_then_block_end", "1 //! x\n/*y*/ /*z*/")
case("mixed_many_lines_then_line", "1 /*a\nb*/ // x\n2")
case("mixed_newline_block_line", "1\n/*x*/ // y\n2")
case("mixed_newline_block_line_end", "1\n/*x*/ // y")
case("mixed_start_block_line", "/*x*/ // y\n1")
case("mixed_start_line_block_line", "// x\n/*y*/ // z\n1")
case("mixed_ls_everywhere", "1", LS, "/*x*/", LS, "// y", LS, "/*z*/", LS, "2")
case("mixed_object",
     '{ // a\n  /* b */ "k" /* c */ : /* d */ 1 /* e */, // f\n'
     '  // g\n  "l": // h\n  2 /* i */ // j\n  /* k */\n} /* l */ // m\n// n')

# ---------------------------------------------------------------------------
group("numbers; the target of the comment tells where the tokens stand")
for n, text in enumerate([
        "0", "-0", "1", "-1", "12", "1234567890123456789012345678901234567890",
        "0.5", "-0.5", "1.50", "0.0", "10.01", "1e5", "1E5", "1e+5", "1E+5", "1e-5",
        "1E-5", "0e0", "0E-0", "-0.0e-0", "1.5e3", "1.5E-3", "-12.25e+07", "1e05", "1e00"]):
    case("number_whole_%02d" % n, text)
    case("number_whole_%02d_comment" % n, text, "/*x*/")
case("number_zero_one", "01")
case("number_zero_one_comment", "01/*x*/")
case("number_zero_zero", "00/*x*/")
case("number_minus_zero_one", "-01 /*x*/")
case("number_zero_then_float", "01.5/*x*/")
case("number_zero_exponent", "0e5/*x*/")
case("number_one_minus_two", "1-2/*x*/")
case("number_float_minus", "1.5-2/*x*/")
case("number_exponent_minus", "1e5-2/*x*/")
case("number_exponent_plus", "1e5+2")
case("number_then_word", "1true/*x*/")
case("number_then_string", '1"a"/*x*/')
case("number_zero_then_true", "0true/*x*/")
case("number_true_then_number", "true1/*x*/")
case("number_line_between_parts", "1/**/.5")
case("number_zeros_fill_the_rows", ("0", 1023))
case("number_zeros_one_too_many", ("0", 1024))
case("number_minus_zeros_fill_the_rows", ("-0", 1023))
case("number_minus_zeros_one_too_many", ("-0", 1024))
case("number_one_and_many_zeros_is_one_token", "1", ("0", 2000))
case("number_zero_one_then_digits_two_tokens", ("01", 1024))
case("number_long_fraction_is_one_token", "0.", ("0", 2000))
case("number_long_exponent_is_one_token", "1e", ("0", 2000))
case("number_fraction_tokens", ("0.5 ", 1023))
for name, text in [
        ("point_last", "1."), ("point_space", "1. 5"), ("point_comment", "1./*x*/"),
        ("point_first", ".5"), ("point_alone", "."), ("two_points", "1..5"),
        ("two_fractions", "1.2.3"), ("point_exponent", "1.e5"), ("minus_point", "-.5"),
        ("minus_alone", "-"), ("minus_space", "- 1"), ("minus_minus", "--1"),
        ("minus_letter", "-a"), ("minus_comment", "-/*x*/1"), ("minus_word", "-true"),
        ("plus", "+1"), ("plus_alone", "+"), ("exponent_bare", "1e"),
        ("exponent_upper_bare", "1E"), ("exponent_plus_bare", "1e+"),
        ("exponent_minus_bare", "1e-"), ("exponent_two_signs", "1e+-5"),
        ("exponent_twice", "1e5e5"), ("exponent_point", "1e5.5"),
        ("exponent_bare_after_fraction", "1.5e"), ("exponent_first", "e5"),
        ("hex", "0x10"), ("octal", "0o7"), ("big", "1n"), ("underscore", "1_000"),
        ("infinity", "Infinity"), ("minus_infinity", "-Infinity"), ("nan", "NaN"),
        ("letter_after", "1a"), ("arabic_digit", "\u0661"), ("wide_digit", "\uFF11"),
        ("one_then_wide_digit", "1\uFF11"), ("superscript", "1\u00B2"), ("wide_minus", "\u22121")]:
    case("number_broken_" + name, text)

group("words")
for name, text in [
        ("true", "true"), ("false", "false"), ("null", "null"),
        ("true_comment", "true/*x*/"), ("false_comment", "false/*x*/"),
        ("null_comment", "null/*x*/"), ("true_digit", "true1"), ("true_string", 'true""'),
        ("true_brace", "true}"), ("true_line", "true//x"), ("true_minus_one", "true-1/*x*/"),
        ("true_space_false", "true false null/*x*/"), ("true_nbsp_false", "true\u00A0false"),
        ("trueish", "trueish"), ("nul", "nul"), ("nulll", "nulll"), ("truefalse", "truefalse"),
        ("tru", "tru"), ("t", "t"), ("fals", "fals"), ("falsey", "falsey"), ("nullx", "nullx"),
        ("true_capital", "True"), ("true_upper", "TRUE"), ("true_z_upper", "trueZ"),
        ("null_a_upper", "nullA"), ("xtrue", "xtrue"), ("true_underscore", "true_"),
        ("true_dollar", "true$"), ("true_at", "true@"), ("true_bracket_mark", "true["),
        ("true_backquote", "true`"), ("true_accent", "true\u00E9"), ("tru_accent", "tru\u00E9"),
        ("undefined", "undefined"), ("name", "name"), ("accent", "\u00E9"), ("e", "e"),
        ("true_escape", "\\u0074rue")]:
    case("word_" + name, text)

group("strings")
for name, text in [
        ("empty", '""'), ("plain", '"abc"'), ("space", '" "'), ("two_touching", '"a""b"/*x*/'),
        ("escapes", '"\\"\\\\\\/\\b\\f\\n\\r\\t\\u00e9"/*x*/'),
        ("escaped_quote", '"a\\"b"/*x*/'), ("escaped_backslash_last", '"a\\\\"/*x*/'),
        ("three_backslashes", '"a\\\\\\""/*x*/'), ("unknown_escape", '"\\q\\x\\0"/*x*/'),
        ("short_unicode_escape", '"\\u12"/*x*/'), ("escaped_multibyte", '"\\\u20AC"/*x*/'),
        ("escaped_lf", '"a\\\nb"/*x*/'), ("escaped_cr", '"a\\\rb"/*x*/'),
        ("escaped_nul", '"a\\\x00b"/*x*/'), ("escaped_1f", '"a\\\x1Fb"/*x*/'),
        ("multibyte", '"\u00E9\u20AC\U0001F600"/*x*/'), ("del", '"\x7F"/*x*/'),
        ("c1_control", '"\u0080\u0085"/*x*/'),
        ("line_separators", '"\u2028\u2029"/*x*/'), ("bom", '"\uFEFF"/*x*/'),
        ("line_comment_inside", '"// x" // y\n'), ("block_comment_inside", '"/* x */" /* y */'),
        ("block_open_inside", '"/*" 1 /* x */'), ("block_close_inside", '"*/" 1'),
        ("escaped_quote_then_comment", '"\\"/*" /*x*/ "*/"'),
        ("comment_holds_string", '/* "a */ "b"'), ("single_quote_inside", '"\'"'),
        ("hash_bang_inside", '"#!"'), ("license_inside", '"@license" 1'),
        ("apostrophes", "'a'"), ("backquotes", "`a`"), ("unended", '"abc'),
        ("unended_alone", '"'), ("unended_after_token", '1 "'), ("unended_three_quotes", '"""'),
        ("unended_backslash", '"abc\\'), ("unended_escaped_quote", '"abc\\"'),
        ("unended_escaped_quote_only", '"\\"'), ("unended_four_backslashes_quote", '"\\\\\\"'),
        ("unended_before_comment", '"abc /* x */'), ("unended_multibyte", '"\u20AC'),
        ("newline_inside", '"a\nb"'), ("cr_inside", '"a\rb"'), ("crlf_inside", '"a\r\nb"'),
        ("tab_inside", '"a\tb"'), ("nul_inside", '"a\x00b"'), ("1f_inside", '"a\x1Fb"'),
        ("vt_inside", '"a\x0Bb"'), ("escape_byte_inside", '"\x1B"'),
        ("newline_after_escape_pair", '"a\\\\\nb"'), ("two_lf_after_backslash", '"a\\\n\nb"'),
        ("crlf_after_backslash", '"a\\\r\nb"'),
        ("typographic_quotes", "\u201Ca\u201D")]:
    case("string_" + name, text)
case("string_long", '"', ("a", 20000), '"/*x*/')
case("string_many_escapes", '"', ("\\\\", 5000), '"/*x*/')
case("string_many_escapes_unended", '"', ("\\\\", 5000), '\\"/*x*/')
case("string_rows_full", ('""', 1023))
case("string_rows_one_too_many", ('""', 1024))

group("other characters that begin no token")
for c in "!#$%&'()*+./;<=>?@\\^_`|~":
    case("no_token_%02x" % ord(c), c)
for c in "(;=":
    case("no_token_%02x_line_comment" % ord(c), c, " // x\n1")
case("no_token_after_good_start", "{ // x\n\u00A0 @ }")
case("no_token_after_comment_only", "/* x */ @")
case("no_token_replacement_character", "1 \uFFFD 2")
case("no_token_nul_at_end", "1\x00")

# ---------------------------------------------------------------------------
group("bytes that are UTF-8 at its edges, and bytes that are not")
for c in (0x7F, 0x80, 0x7FF, 0x800, 0xFFF, 0x1000, 0xCFFF, 0xD000, 0xD7FF, 0xE000, 0xFFFD,
          0xFFFF, 0x10000, 0x3FFFF, 0x40000, 0xFFFFF, 0x100000, 0x10FFFF):
    case("utf8_good_%04x" % c, "/*", chr(c), "*/1")
    case("utf8_good_%04x_in_string" % c, '"', chr(c), '"//')
BAD_BYTES = [
    "C080", "C081", "C0AF", "C1BF", "E08080", "E080AF", "E09FBF", "F0808080", "F08FBFBF",
    "F0808AAF",
    "EDA080", "EDAFBF", "EDB080", "EDBFBF", "EDA0BDEDB880", "F4908080", "F4BFBFBF", "F5808080",
    "F7BFBFBF", "F888808080", "FC8480808080", "FE", "FF", "FEFF", "FFFE", "80", "BF", "8080",
    "C2", "DF", "C3", "E0", "E0A0", "E2", "E280", "EF", "EFBB", "ED9F", "F0", "F09F", "F09F98",
    "F4", "F48F", "F48FBF", "C220", "C2C2", "E220", "E28020", "E2802A2F", "E2C2A8", "F020",
    "F09F20", "F09F9820", "C2A0A0", "E280A8A8", "C27F", "C2C0", "E0A07F", "E0A0C0", "ED9FC0",
    "F0907F80", "F09080C0", "F48FBFC0", "C3A9C3", "EFBBBFBF", "81", "8F", "90", "9F", "A0", "A8",
    "C0", "C1", "F5", "F6", "F7", "F8", "F9", "FA", "FB", "FC", "FD", "DF7F", "DFC0", "E17F80",
    "E1C080", "E1807F", "E180C0", "EE7F80", "EFBF7F", "EFBFC0", "F07F8080", "F08F8080", "F17F8080",
    "F1C08080", "F1807F80", "F180C080", "F180807F", "F18080C0", "F4C08080", "F47F8080"]
for text in BAD_BYTES:
    case("utf8_bad_" + text.lower(), bytes.fromhex(text))
for text in ("C080", "E08080", "F0808080", "EDA080", "F4908080", "80", "FF", "C3", "E280"):
    raw = bytes.fromhex(text)
    case("utf8_bad_%s_in_line" % text.lower(), "// ", raw, "\n1")
    case("utf8_bad_%s_in_block" % text.lower(), "/* ", raw, " */1")
    case("utf8_bad_%s_in_string" % text.lower(), '"', raw, '"')
    case("utf8_bad_%s_at_the_end" % text.lower(), "{}\n", raw)
case("utf8_bad_in_unended_block", "/* ", b"\xFF")
case("utf8_bad_after_broken_token", "@ ", b"\xFF")
case("utf8_bad_after_unended_string", '"', b"\xE2\x80")
case("utf8_bad_cut_after_backslash", '"\\', b"\xC3", '"')
case("utf8_bad_utf16", b"\xFF\xFE1\x00")
case("utf8_bad_latin1", "// caf", b"\xE9\n1")

# ---------------------------------------------------------------------------
group("the longest text")
case("long_spaces_32768", (" ", 32768))
case("long_spaces_32769", (" ", 32769))
case("long_spaces_40000", (" ", 40000))
case("long_spaces_65536", (" ", 32768), (" ", 32768))
case("long_spaces_65537", (" ", 32768), (" ", 32769))
case("long_line_comment_32768", "//", ("a", 32766))
case("long_line_comment_32767_lf", "//", ("a", 32765), "\n")
case("long_line_comment_32769", "//", ("a", 32767))
case("long_block_32768", "/*", ("a", 32764), "*/")
case("long_block_32769", "/*", ("a", 32765), "*/")
case("long_block_lines_32768", "/*", ("\n", 32764), "*/")
case("long_unended_32768", "/*", ("a", 32766))
case("long_unended_32769", "/*", ("a", 32767))
case("long_unended_last_byte_star", "/*", ("*", 32766))
case("long_string_32768", '"', ("a", 32766), '"')
case("long_string_unended_32768", '"', ("a", 32767))
case("long_number_32768", ("1", 32768))
case("long_last_byte_token", (" ", 32767), "1")
case("long_last_byte_broken", (" ", 32767), "@")
case("long_last_byte_not_utf8", (" ", 32767), b"\xFF")
case("long_last_character_cut", (" ", 32766), b"\xE2\x80")
case("long_ls_ends_at_32768", (" ", 32765), LS)
case("long_ls_ends_at_32769", (" ", 32766), LS)
case("long_ls_ends_line_comment_at_32768", "//", ("a", 32763), LS)
case("long_32769_not_utf8_too", (" ", 32768), b"\xFF")
case("long_32769_all_not_utf8", (b"\xFF", 32769))
case("long_32768_all_not_utf8", (b"\xFF", 32768))
case("long_32769_broken_token_too", ("@", 32769))
case("long_32769_would_be_unended", "/*", ("a", 32770))

group("full tables")
case("full_comments_1024", ("/**/", 1024))
case("full_comments_1025", ("/**/", 1025))
case("full_comments_1025_then_token", ("/**/", 1025), "1")
case("full_line_comments_1024", ("//\n", 1024))
case("full_line_comments_1025", ("//\n", 1025))
case("full_line_comments_one_more_without_end", ("//\n", 1024), "//")
case("full_comments_over_many_gaps", ("1/**//*!*/", 512))
case("full_comments_over_many_gaps_one_more", ("1/**//*!*/", 512), "2//")
case("full_comments_then_token_without", ("/**/", 1024), "1 2 3\n")
case("full_comments_then_one_in_next_gap", ("/**/", 1024), "1/**/")
case("full_comments_then_unended", ("/**/", 1024), "/*")
case("full_comments_1025_then_unended", ("/**/", 1025), "/*")
case("full_spaces_256", ("\u000B", 256))
case("full_spaces_257", ("\u000B", 257))
case("full_spaces_ls_256", (LS, 256))
case("full_spaces_ls_257", (LS, 257))
case("full_spaces_over_gaps_256", ("1\u00A0", 256))
case("full_spaces_over_gaps_257", ("1\u00A0", 257))
case("full_spaces_then_tokens", ("\u3000", 256), "1 2\n3")
case("full_spaces_then_unended", ("\u3000", 256), "/* \u3000")
case("full_spaces_not_in_comments", ("\uFEFF", 256), "//\u3000", LS, "/*\u3000*/1")
case("full_spaces_swallowed_by_lines", ("//" + LS, 300))
case("full_spaces_after_swallowed", "//", (LS, 257))
case("full_spaces_after_swallowed_one_more", "//", (LS, 258))
case("full_tokens_1023_and_end", (",", 1023))
case("full_tokens_1024_no_row_for_end", (",", 1024))
case("full_tokens_1025", (",", 1025))
case("full_tokens_1023_unended", (",", 1023), "/*")
case("full_tokens_1024_unended", (",", 1024), "/*")
case("full_tokens_1023_comment_end", (",", 1023), " /*x*/ // y")
case("full_tokens_20000", ("[", 20000))
case("full_all_three_tables",
     ("1/*x*/", 256), (",\u000C/**/", 256), ("[ //\n", 510), "2/*v8 ignore*/\n/*!*/")
case("full_largest_listing", (" ", 10000), ("/*v8 ignore*/", 1024), ("\u000C", 256), "/*")

group("which refusal comes first")
case("first_4_before_5", ("/**/", 1025), "@")
case("first_4_before_6", ("\u000B", 257), "@")
case("first_4_before_7", (",", 1024), "@")
case("first_4_before_5_6", ("/**/", 1025), ("\u000B", 257), "@")
case("first_4_before_5_slash", ("/**/", 1025), "/")
case("first_4_before_7_unended_string", (",", 1024), '"')
case("first_4_before_all", (",", 1024), ("/**/", 1025), ("\u000B", 257), "@")
case("first_5_before_6", ("/**/", 1025), ("\u000B", 257))
case("first_5_before_6_spaces_come_first", ("\u000B", 257), ("/**/", 1025))
case("first_5_before_6_and_token", ("/**/", 1025), ("\u000B", 257), "1")
case("first_5_before_7", (",", 1024), ("/**/", 1025))
case("first_5_before_6_7", (",", 1024), ("\u000B", 257), ("/**/", 1025))
case("first_5_before_7_unended", (",", 1024), ("/**/", 1025), "/*")
case("first_6_before_7", (",", 1024), ("\u000B", 257))
case("first_6_before_7_token", (",", 1024), ("\u000B", 257), ",")
case("first_7_before_later_4", (",", 1025), "@")
case("first_7_before_later_5", (",", 1025), ("/**/", 1025))
case("first_7_with_full_comments", ("/**/", 1024), (",", 1024))
case("first_7_with_full_spaces", ("\u000B", 256), (",", 1024))
case("first_5_before_later_4", ("/**/", 1025), "1@")
case("first_6_before_later_4", ("\u000B", 257), "1@")
case("first_6_before_later_5", ("\u000B", 257), "1", ("/**/", 1025))
case("first_5_before_later_6", ("/**/", 1025), "1", ("\u000B", 257))
case("first_4_before_later_5", "@", ("/**/", 1025))
case("first_4_before_later_6", "@", ("\u000B", 257))
case("first_4_before_later_7", "@", (",", 1025))
case("first_2_before_4", "@", b"\x80")
case("first_2_before_5", ("/**/", 1025), b"\x80")
case("first_1_before_2", ("/**/", 8192), b"\x80")
case("first_1_before_5", ("/**/", 8193))
case("first_5_at_full_length", ("/**/", 8192))
case("first_6_at_full_length", ("\u000B", 32768))
case("first_7_at_full_length", (",", 32768))
case("first_4_at_full_length", ("/**/", 8191), "   @")

# ---------------------------------------------------------------------------
group("the share of comment, cut off")
case("share_none", "1")
case("share_none_of_nothing")
case("share_all", "/**/")
case("share_all_two", "/**//**/")
case("share_four_of_five", "/**/1")
case("share_three_of_six", "// \n1 ")
case("share_four_sevenths", "/**/   ")
case("share_four_of_six", "/**/  ")
case("share_two_of_three", "//\n")
case("share_five_of_eight", "/*x*/   ")
case("share_999", "//", ("x", 998), "\n")
case("share_999_of_long_text", "//", ("x", 32764), "\n1")
case("share_two_of_3003", "//\n", (" ", 3000))
case("share_two_of_2000", "//\n", (" ", 1997))
case("share_two_of_2001", "//\n", (" ", 1998))
case("share_two_of_full_length", "//\n", (" ", 32765))
case("share_half_of_full_length", "/*", (" ", 16380), "*/", (" ", 16384))
case("share_counts_bytes", "//\u20AC\n1")
case("share_leaves_out_the_line_end", "//x\r\n")
case("share_leaves_out_ls", "//x", LS)
case("share_leaves_out_unended", "/*x*/ /*y")
case("share_leaves_out_strings", '"/* x */"/**/')


# ---------------------------------------------------------------------------
# Random cases

rng = random.Random(20240615)

BLANK_BITS = ["", "", " ", "\t", "  ", " \t", "\x0C", "\x0B", "\u00A0", "\u0085", "\u3000",
              "\uFEFF", "\u200B", "\x1C"]
WORDS = ["x", "lock", "!", "*", "**", "@", "#", "@license", "@preserve", "@licens", "@preserv",
         "@__KEY__", "#__KEY__", "@__PURE__", "#__PURE__", "@__NO_SIDE_EFFECTS__",
         "#__NO_SIDE_EFFECTS__", "@vite", "@vite-ignore", "webpackChunk", "webpack", "turbopackIgnore",
         "turbopack", "v8 ignore", "v8 ignore file", "c8 ignore", "c8 ignore file",
         "node:coverage", "istanbul ignore", "istanbul ignore file", " file", "A", "\u00E9",
         "\u20AC", "\U0001F600", "/", "//", "/*", "\"", "\\", "* /", "1", "\u2027", "\u00C9"]
TERMINATORS = ["\n", "\n", "\n", "\r", "\r\n", LS, PS]
REMARKS = ["x", "lock", "! l", "!", "* j ", "* j @license ", "*@preserve", "***", "@license x",
           "x @preserve", "@__PURE__", "#__PURE__ x", "@__NO_SIDE_EFFECTS__", "#__NO_SIDE_EFFECTS__",
           "@__KEY__", "#__KEY__ ", "\u00A0@__KEY__", "webpackChunk", "@vite-ignore", "turbopackIgnore",
           "v8 ignore next", "c8 ignore file", "node:coverage x", "istanbul ignore file",
           "v8 ignore file x"]


def random_content():
    if rng.random() < 0.6:
        return rng.choice(["", "", " ", "\t "]) + rng.choice(REMARKS) + rng.choice(["", "", " ", " x"])
    out = rng.choice(BLANK_BITS)
    for _ in range(rng.choice([0, 1, 1, 1, 1, 2, 2, 3])):
        out += rng.choice(WORDS) + rng.choice(BLANK_BITS + ["", "", ""])
    return out


def random_line_comment():
    return "//" + random_content() + rng.choice(TERMINATORS)


def random_block():
    content = random_content()
    if rng.random() < 0.3:
        at = rng.randrange(len(content) + 1)
        content = content[:at] + rng.choice(TERMINATORS) + content[at:]
    while "*/" in content:
        content = content.replace("*/", "* /")
    if content.startswith("/"):
        content = " " + content
    return "/*" + content + "*/"


def random_space():
    return chr(rng.choice(IRREGULAR))


def random_gap():
    out = ""
    for _ in range(rng.choice([0, 1, 1, 2, 2, 3, 4])):
        out += rng.choice([
            lambda: " ", lambda: "\t", lambda: rng.choice(TERMINATORS),
            lambda: rng.choice(TERMINATORS), random_space, random_line_comment,
            random_line_comment, random_block, random_block, random_block,
            lambda: " " + random_block() + " " + random_block(),
        ])()
    return out


TOKENS = ["{", "}", "[", "]", ":", ":", ":", ",", ",", "true", "false", "null", "0", "-1", "12",
          "01", "0.5", "1e5", "1E-5", "-2.5e+3", '""', '"a"', '"a\\"b"', '"// x"', '"/* x */"',
          '"\\\\"', '"\u20AC"', '"\\u20aC"', '"\u2028"', '"\\\n"']
BROKEN = ["/", "@", "'", "#!", "tru", "trueish", "nul", "1.", "-", "1e+", ".5", '"', '"a\\"',
          '"\n"', '"\t"', "\u0085", "\u180E", "\u200B", "\u2060", "\u00E9", "\uFFFD", "\x00", "*/",
          "(", "=", ";", "<!--"]


def random_token(before):
    """A token that does not run together with letters or digits before it."""
    token = rng.choice(TOKENS)
    if before and token and before[-1].isalnum() and token[0].isalnum():
        token = rng.choice([" ", ",", "\n"]) + token
    return token


def random_text():
    out = random_gap() if rng.random() < 0.5 else ""
    for _ in range(rng.choice([1, 2, 2, 3, 3, 4, 5])):
        out += random_token(out)
        out += random_gap()
    if rng.random() < 0.25:
        out += rng.choice(["//" + random_content(), "/*" + random_content(),
                           "/*" + random_content() + "\n", "/*/", "/* x *"])
    raw = out.encode("utf-8")
    luck = rng.random()
    if luck < 0.12:
        # Put something that begins no token somewhere at a character's edge.
        chars = list(out)
        chars.insert(rng.randrange(len(chars) + 1), rng.choice(BROKEN))
        raw = "".join(chars).encode("utf-8")
    elif luck < 0.17:
        # Spoil one byte.
        at = rng.randrange(len(raw))
        raw = raw[:at] + bytes([rng.randrange(256)]) + raw[at + 1:]
    elif luck < 0.20:
        # Cut the text off, anywhere.
        raw = raw[:rng.randrange(len(raw) + 1)]
    elif luck < 0.22:
        # Take one byte away.
        at = rng.randrange(len(raw))
        raw = raw[:at] + raw[at + 1:]
    return raw


group("random cases")
for number in range(400):
    case("random_%03d" % number, random_text())


def main():
    if len(sys.argv) > 1:
        path = sys.argv[1]
    else:
        path = os.path.join(os.path.dirname(os.path.abspath(__file__)), "cases.txt")
    head = [
        "# Texts for lock_comments, written by gen.py: do not edit by hand.",
        "# NAME FIELD FIELD ..; a field is bytes in hexadecimal, *N repeats them.",
    ]
    with open(path, "w", encoding="ascii", newline="\n") as file:
        file.write("\n".join(head + lines) + "\n")


if __name__ == "__main__":
    main()
