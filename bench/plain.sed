# Makes of bench/port.rt.txt the program that plays by the calls of the crate `plain_sampler`, on a sampler with its backing.
s/^use sampler::Sampler;/use plain_sampler::Backing;\n&\n\n#[derive(Clone, Copy)]\nstruct Both {\n    s: Sampler,\n    k: Backing,\n}/
s/s: &mut Sampler/s: \&mut Both/
s/lent_sampler::\([a-z_]*\)(s\b/plain_sampler::\1(\&mut s.s, \&mut s.k/
s/\b\(s\|was\)\.channels/\1.s.channels/g
s/Sampler::new(2, InitParams::default(), memory)\.sampler;/Both { s: &/
s/\.sampler;$/.sampler, k: Backing::new() };/
