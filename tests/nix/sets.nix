# Sets of derivations, by name. `bytes` is a file that holds every byte from 1 to 255.
{ bytes }:
let
  inherit (builtins) concatMap foldl' genList hashString listToAttrs readFile substring toFile unsafeDiscardOutputDependency;

  make = name: more: derivation ({ inherit name; system = "x"; builder = "b"; } // more);
  named = prefix: count: genList (i: prefix + toString i) count;
  # An empty string that depends on a derivation: it makes an input row and takes no room elsewhere.
  needs = drv: substring 0 0 "${drv}";

  fixed = name: algorithm: mode: more: make name ({
    outputHash = hashString algorithm "";
    outputHashAlgo = algorithm;
    outputHashMode = mode;
  } // more);

  # Of equal hash, and not the same: they rest on fixed files that differ in an argument only.
  twin = which: make "twin" {
    outputs = [ "out" "dev" ];
    input = fixed "same" "sha256" "flat" { args = [ which ]; };
  };

  every = readFile bytes;
  odd = "a\"b\\c\nd\re\tf";

  # So many files, each but the first with the one before it as its input.
  chain = count: foldl' (below: _: make "a" { builder = "b" + needs below; }) (make "a" { }) (genList (i: i) (count - 1));

  # So many outputs, input rows, sources, arguments and rows of the environment, of which four are builder, name, out and system.
  manyOutputs = count: make "many" { outputs = named "o" count; };
  manyInputs = count: make "many" { args = [ (foldl' (all: name: all + needs (make name { })) "" (named "i" count)) ]; };
  manySources = count: make "many" { args = [ (foldl' (all: name: all + substring 0 0 "${toFile name ""}") "" (named "s" count)) ]; };
  manyArguments = count: make "many" { args = named "a" count; };
  manyRows = count: make "many" (listToAttrs (map (name: { inherit name; value = ""; }) (named "v" (count - 4))));
in
{
  plain = [ (make "plain" { }) ];

  names = [
    (make "0+-._?=Az" { outputs = [ "out" "z+-._?=" "A" "_" "0" ]; })
    (make (foldl' (all: _: all + "n") "" (genList (i: i) 207)) { outputs = [ "out" "dev" ]; })
  ];

  outputs =
    let
      three = make "three" { outputs = [ "lib" "out" "dev" ]; };
      none = make "no-out" { outputs = [ "zz" "b" "a" ]; };
    in
    [
      (make "user" { inherit (three) dev; lib = [ three.lib none.zz ]; args = [ none.a ]; })
      (make "other-user" { inherit three; })
    ];

  fixed =
    let
      all = concatMap (mode: map (algorithm: fixed "${algorithm}-${mode}" algorithm mode { }) [ "md5" "sha1" "sha256" "sha512" ]) [ "flat" "recursive" ];
      by-sri = make "sri" { outputHash = "sha256-47DEQpj8HBSa+/TImW+5JCeuQeRkm5NMpJWZG3hSuFU="; };
      by-base32 = make "base32" {
        outputHash = "0mdqa9w1p6cmli6976v4wi0sw9r4p5prkj7lzfd1877wk11c9c73";
        outputHashAlgo = "sha256";
        outputHashMode = "recursive";
      };
      fetched = fixed "fetched" "sha256" "recursive" { inherit by-sri; };
    in
    [ (make "user" { inherit all by-base32 fetched; }) ];

  # A fixed file needs its inputs by our rule; Nix does not look at them.
  fixed-input = [ (make "user" { input = fixed "fetched" "sha256" "flat" { tool = make "tool" { }; }; }) ];

  sources =
    let
      one = toFile "one" "1";
      two = toFile "two" "2 ${one}";
      tool = make "tool" { inherit two; };
    in
    [
      (make "user" { inherit one two tool; args = [ (toFile "zero" "") ]; })
      # A derivation file as a source, and with all that it rests on.
      (make "file-user" { file = unsafeDiscardOutputDependency tool.drvPath; })
      (make "closure-user" { file = tool.drvPath; })
    ];

  diamonds =
    let
      bottom = make "bottom" { outputs = [ "out" "dev" ]; };
      left = make "left" { inherit bottom; };
      right = make "right" { inherit (bottom) dev; };
      top = make "top" { inherit left right; };
    in
    [ (make "over" { inherit top bottom left; }) ];

  # Of 245 files is the longest chain whose image drvcheck takes: each file has 16 bytes in the table and 251 of text.
  chain-245 = [ (chain 245) ];
  chain-256 = [ (chain 256) ];

  escapes = [
    (make "every" { ${odd} = every; inherit every; args = [ every "" odd "\\n" "\${" ]; builder = every; })
    # Rows rise by what names mean, not by their escapes: 10 comes before 32 and 92 after 90.
    (make "order" { "a" = ""; "a\n" = "1"; "a " = "2"; "aZ" = "3"; "a\\" = "4"; "a\"" = "5"; "a!" = "6"; "a\t" = "7"; "" = "8"; "é" = "9"; "ÿ" = "€𝄞"; "~" = "\n"; "\r\n" = "\r"; })
  ];

  values = [ (make "values" { yes = true; no = false; nothing = null; number = -12; list = [ 1 [ "a" true ] ]; path = toFile "p" ""; }) ];

  structured =
    let
      tool = make "tool" { __structuredAttrs = true; outputs = [ "out" "dev" ]; text = odd; };
    in
    [ (make "user" { __structuredAttrs = true; list = [ 1 "two" { three = tool.dev; } ]; inherit every; yes = true; }) ];

  limit-outputs = [ (make "user" { args = map (name: (manyOutputs 16).${name}) (named "o" 16); }) ];
  limit-inputs = [ (manyInputs 64) ];
  limit-sources = [ (manySources 64) ];
  limit-arguments = [ (manyArguments 64) ];
  limit-rows = [ (manyRows 128) ];

  # Seventeen outputs also make seventeen names in the input row of their user.
  past-outputs = [ (make "user" { args = map (name: (manyOutputs 17).${name}) (named "o" 17); }) ];
  past-inputs = [ (manyInputs 65) ];
  past-sources = [ (manySources 65) ];
  past-arguments = [ (manyArguments 65) ];
  past-rows = [ (manyRows 129) ];

  equal-same = [ (make "user" { one = twin "1"; two = twin "2"; }) ];
  equal-other = [ (make "over" { user = make "user" { one = twin "1"; two = (twin "2").dev; }; }) ];
  equal-turned = [ (make "over" { user = make "user" { one = (twin "1").dev; two = twin "2"; }; }) ];

  # Nix 2.8 writes the system as it is; what it wrote of one with a quotation mark or a backslash it cannot read again.
  system-newline = [ (make "newline" { system = "x\n"; }) ];

  fixed-stated = [ (make "user" { input = fixed "given" "sha1" "flat" { }; }) ];
}
