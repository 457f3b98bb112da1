// Where the small terms of the series show: at each argument the coefficient
// named above it, one ulp up or down (or left out, where it says "without"),
// changes the leaf's answer. Found by searching some 10^10 floats; for smaller
// coefficients there is hardly a float at which one ulp does.

pub const SINE: [u64; 20] = [
    // 1/7!
    0x3ff8_2032_d18c_c78e,
    0x3ff8_d7ec_f0a6_5e8a,
    0x3ff8_c3aa_ef89_98b7,
    0x3ff8_7449_1f40_efc4,
    // 1/9!
    0x3ff8_c18c_945e_8846,
    0x3ff8_c1b1_f298_6ed2,
    0x3ff8_2032_d18c_c78e,
    0x3ff8_65b7_2f39_5ec8,
    // 1/11!
    0x3ff8_12f1_0d98_e3f8,
    0x3ff8_b6b2_9051_f251,
    0x3ff8_f6ab_ef43_7e1e,
    0x3ff8_5a67_1fd0_ae55,
    // 1/13!
    0x3ff8_2a19_6802_66fe,
    0x3ff8_5292_e1b6_6938,
    0x3ff8_fd08_8a17_ce62,
    0x3ff8_3556_bb18_29fc,
    // 1/15!
    0x3ff8_0263_f6e6_3511,
    0x3ff8_1839_05d9_11c9,
    0x3ff8_cc11_dad2_7e22,
    0x3ff8_7ee4_072b_781f,
];

pub const COSINE: [u64; 21] = [
    // 1/6!
    0x3ff8_0966_c9b3_a8d0,
    0x3ff8_7010_5a21_0b3d,
    0x3ff8_d596_a526_e3ff,
    0x3ff8_3d31_1b76_9313,
    // 1/8!
    0x3ff8_d596_a526_e3ff,
    0x3ff8_ec1a_0c24_b347,
    0x3ff8_0966_c9b3_a8d0,
    0x3ff8_fc40_0a1d_5241,
    // 1/10!
    0x3ff8_fc40_0a1d_5241,
    0x3ff8_d8fc_fa17_a56c,
    0x3ff8_c606_2015_df37,
    0x3ff8_e40a_e35c_3926,
    // 1/12!
    0x3ff8_a508_2b3d_abfd,
    0x3ff8_e21d_da1c_0eed,
    0x3ff8_3baf_79d0_ddb5,
    0x3ff8_4358_f7e4_541f,
    // 1/14!
    0x3ff8_516d_15db_de68,
    0x3ff8_3563_26da_80fe,
    0x3ff8_f902_e82a_1e33,
    0x3ff8_cbdf_4b45_68c7,
    // 1/16!
    0x3ff8_e2b0_bff0_e3e4,
];

pub const LOGARITHM: [u64; 24] = [
    // 1/7
    0x3fff_2d87_8db4_9d16,
    0x3fff_96ca_41c2_2c8a,
    0x3fff_3e91_7044_323e,
    0x3fff_f618_81fc_bb89,
    // 1/9
    0x3fff_ebc2_9e6f_8c35,
    0x3fff_8ad3_2303_0852,
    0x3fff_e1a3_d17a_ea1f,
    0x3fff_9253_b185_9597,
    // 1/11
    0x3fff_d3fb_cacf_6c29,
    0x3fff_8e17_0135_268f,
    0x3fff_a283_3d8f_01ba,
    0x3fff_845c_4d6f_50b7,
    // 1/13
    0x3fff_d589_0635_5fee,
    0x3fff_e3e2_3e4a_a40b,
    0x3fff_8e26_2c24_a14d,
    0x3fff_e67e_34b4_a226,
    // 1/15
    0x3fff_1ac3_b76c_93d1,
    0x3fff_f933_d3f0_64d0,
    0x3fff_8e26_2c24_a14d,
    0x3fff_8de3_aca9_3ee0,
    // 1/17
    0x3fff_e041_3f6f_01e6,
    0x3fff_584c_1eef_505e,
    // 1/19
    0x3fff_971f_55f5_3a5e,
    0x3fff_ae5c_7b9b_b61a,
];

pub const EXPONENTIAL: [u64; 40] = [
    // 1/4!
    0x3fd5_45b9_a906_ba65,
    0x3fd5_0e2b_bfba_9d88,
    0x3fd5_d4ee_6a2f_2462,
    0x3fd5_a840_07ce_7a10,
    // 1/5!
    0x3fd5_1e31_0a81_4278,
    0x3fd5_83ef_0df0_156e,
    0x3fd5_3377_a366_f883,
    0x3fd5_94d3_8e45_b299,
    // 1/6!
    0x3fd5_7e84_1285_92f3,
    0x3fd5_c081_ba00_0d19,
    0x3fd5_7e1e_d5a0_197f,
    0x3fd5_d7de_8dd3_ecbf,
    // 1/7!
    0x3fd5_ff35_9969_0937,
    0x3fd5_80bf_74ad_f128,
    0x3fd5_1906_bad2_3dd9,
    0x3fd5_639b_01a8_bb90,
    // 1/8!
    0x3fd5_3529_19ce_33f6,
    0x3fd5_3b39_34db_d649,
    0x3fd5_fbd9_6154_cf70,
    0x3fd5_f493_0e22_a65b,
    // 1/9!
    0x3fd5_3b39_34db_d649,
    0x3fd5_f31a_b831_805f,
    0x3fd5_fbd9_6154_cf70,
    0x3fd5_542d_d975_0a86,
    // without 1/15!
    0x3fd5_d4ee_6a2f_2462,
    0x3fd5_a840_07ce_7a10,
    0xbfd5_305c_50e4_c31a,
    0xbfd5_a367_99e5_c139,
    // without 1/16!
    0x3fd5_c4ca_49df_9668,
    0x3fd5_0c8e_0bd9_e7f2,
    0xbfd5_451e_735a_62b1,
    0xbfd5_9aa6_462f_e023,
    // without 1/17!
    0x3fd5_8085_b425_bd26,
    0x3fd5_1906_bad2_3dd9,
    0xbfd5_30e2_dd0a_0e17,
    0xbfd5_c9d4_78c5_6935,
    // without 1/18!
    0x3fd5_fbd9_6154_cf70,
    0x3fd5_f493_0e22_a65b,
    0xbfd5_afd4_fb1b_fc7a,
    0xbfd5_a341_faf0_48ef,
];

pub const ARCTANGENT: [u64; 16] = [
    // 1/7
    0x3fee_65a8_9af8_09b7,
    0x3fef_45e0_6da0_c366,
    0x3fef_785c_94e3_4f68,
    0x3fef_8070_ea99_f64c,
    // 1/9
    0x3fef_28bf_cd46_5170,
    0x3fee_850c_7fe9_07b9,
    0x3fef_3793_c37c_a30a,
    0x3fef_f1ff_6bf9_9e9a,
    // 1/11
    0x3fef_ef22_487a_edd4,
    0x3fee_3eb0_1856_aa78,
    0x3fef_2d2f_bfa1_1273,
    0x3fef_827d_882f_954f,
    // 1/13
    0x3fef_f30b_6b52_d854,
    0x3fee_f645_081b_712c,
    0x3fef_f9ec_0b47_eddd,
    0x3fef_7c61_81d1_6d11,
];
