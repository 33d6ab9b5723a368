package org.bouncycastle.pqc.crypto.lms;

import java.util.ArrayList;
import java.util.List;

/** Calls of Bouncy Castle's LMS that are visible in its own package alone. */
public final class Inside {
    private Inside() {}

    /** The one-time public hash K of the leaf {@code q} (RFC 8554, 4.3). */
    public static byte[] publicHash(int code, byte[] seed, byte[] id, int q) {
        return LM_OTS.lms_ots_generatePublicKey(privateKey(code, seed, id, q)).getK();
    }

    /** The one-time signature: the code, C and the values y (RFC 8554, 4.5). */
    public static byte[] signOts(int code, byte[] seed, byte[] id, int q, byte[] text) throws Exception {
        LMOtsPrivateKey key = privateKey(code, seed, id, q);
        return LM_OTS.lm_ots_generate_signature(null, key, null, text, false).getEncoded();
    }

    /** The public hash that a one-time signature leads to (RFC 8554, 4.6, algorithm 4b). */
    public static byte[] candidate(int code, byte[] id, int q, byte[] text, byte[] signature) throws Exception {
        LMOtsPublicKey key = new LMOtsPublicKey(LMOtsParameters.getParametersForType(code), id, q, new byte[32]);
        return LM_OTS.lm_ots_validate_signature_calculate(key, LMOtsSignature.getInstance(signature), text);
    }

    /** The digit {@code i} of {@code text} (RFC 8554, 3.1.3). */
    public static int coef(byte[] text, int i, int width) {
        return LM_OTS.coef(text, i, width);
    }

    /** The checksum of the 32 octets {@code text} (RFC 8554, 4.4). */
    public static int checksum(int code, byte[] text) {
        return LM_OTS.cksm(text, 32, LMOtsParameters.getParametersForType(code));
    }

    /** The keys of an HSS key's levels, the first level first. */
    public static List<LMSPrivateKeyParameters> levels(HSSPrivateKeyParameters key) {
        return new ArrayList<>(key.getKeys());
    }

    private static LMOtsPrivateKey privateKey(int code, byte[] seed, byte[] id, int q) {
        return new LMOtsPrivateKey(LMOtsParameters.getParametersForType(code), id, q, seed);
    }
}
