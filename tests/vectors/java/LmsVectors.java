import java.nio.charset.StandardCharsets;
import java.security.MessageDigest;
import java.security.SecureRandom;
import java.util.HexFormat;
import java.util.List;
import org.bouncycastle.crypto.AsymmetricCipherKeyPair;
import org.bouncycastle.pqc.crypto.MessageSigner;
import org.bouncycastle.pqc.crypto.lms.HSSKeyGenerationParameters;
import org.bouncycastle.pqc.crypto.lms.HSSKeyPairGenerator;
import org.bouncycastle.pqc.crypto.lms.HSSPrivateKeyParameters;
import org.bouncycastle.pqc.crypto.lms.HSSPublicKeyParameters;
import org.bouncycastle.pqc.crypto.lms.HSSSigner;
import org.bouncycastle.pqc.crypto.lms.Inside;
import org.bouncycastle.pqc.crypto.lms.LMOtsParameters;
import org.bouncycastle.pqc.crypto.lms.LMSKeyParameters;
import org.bouncycastle.pqc.crypto.lms.LMSParameters;
import org.bouncycastle.pqc.crypto.lms.LMSPrivateKeyParameters;
import org.bouncycastle.pqc.crypto.lms.LMSSigner;
import org.bouncycastle.pqc.crypto.lms.LMSigParameters;

/**
 * Prints vectors of LM-OTS, LMS and HSS (RFC 8554) that Bouncy Castle makes from fixed seeds.
 *
 * <p>The one argument is {@code ots}, {@code trees} or {@code hss}. A record is a line in brackets and
 * then lines of a name, a blank and a value; octets are hexadecimal.
 */
public final class LmsVectors {
    private static final byte[] SEED_A = run(0x00, 1, 32);
    private static final byte[] ID_A = run(0x80, 1, 16);
    private static final byte[] SEED_B = run(0xff, -1, 32);
    private static final byte[] ID_B = run(0x7f, -1, 16);
    private static final LMSigParameters[] TREES = {
        LMSigParameters.lms_sha256_n32_h5, LMSigParameters.lms_sha256_n32_h10
    };
    private static final LMOtsParameters[] SETS = {
        LMOtsParameters.sha256_n32_w1, LMOtsParameters.sha256_n32_w2,
        LMOtsParameters.sha256_n32_w4, LMOtsParameters.sha256_n32_w8
    };

    public static void main(String[] words) throws Exception {
        System.out.println("# Bouncy Castle " + MessageSigner.class.getPackage().getImplementationVersion()
                + ", keys by RFC 8554, appendix A; C = H(I, u32(q), 0xfffd, 0xff, SEED)");
        switch (words[0]) {
            case "ots" -> printOts();
            case "trees" -> printTrees();
            case "hss" -> printHss();
            default -> throw new IllegalArgumentException(words[0]);
        }
    }

    // One-time signatures

    private static void printOts() throws Exception {
        for (int code = 1; code <= 4; code++) {
            printDigits(code);
            printPublicHash(code, SEED_A, ID_A, 0);
            printPublicHash(code, SEED_B, ID_B, 0x01020304);
            printOtsSignature(code, SEED_B, ID_B, 0x01020304, "enrolment request".getBytes(StandardCharsets.US_ASCII));
            printOtsSignature(code, SEED_A, ID_A, 0, new byte[0]);
        }
    }

    private static void printDigits(int code) {
        int width = 1 << (code - 1);
        for (byte[] octets : new byte[][] {new byte[32], run(0xff, 0, 32), run(0x00, 1, 32), run(0x9a, 0x35, 32)}) {
            StringBuilder digits = new StringBuilder();
            for (int i = 0; i < 8; i++) {
                digits.append(i == 0 ? "" : " ").append(Inside.coef(octets, i, width));
            }
            begin("digits, ots code " + code);
            show("w", width);
            show("octets", octets);
            show("first_digits", digits);
            show("last_digit", Inside.coef(octets, 256 / width - 1, width));
            show("checksum", Inside.checksum(code, octets));
        }
    }

    private static void printPublicHash(int code, byte[] seed, byte[] id, int q) {
        begin("public hash, ots code " + code + ", q " + q);
        showOtsKey(code, seed, id, q);
    }

    private static void showOtsKey(int code, byte[] seed, byte[] id, int q) {
        show("ots", code);
        show("seed", seed);
        show("id", id);
        show("q", q);
        show("public_hash", Inside.publicHash(code, seed, id, q));
    }

    private static void printOtsSignature(int code, byte[] seed, byte[] id, int q, byte[] text) throws Exception {
        byte[] signature = Inside.signOts(code, seed, id, q, text);
        require(same(Inside.candidate(code, id, q, text, signature), Inside.publicHash(code, seed, id, q)));
        begin("one-time signature, ots code " + code + ", q " + q + ", text of " + text.length + " octets");
        showOtsKey(code, seed, id, q);
        show("text", text);
        show("length", signature.length);
        show("sha256", sha256(signature));
        show("signature", signature);
        int[] places = {4, 36, signature.length - 1};
        for (int place : places) {
            byte[] changed = flipped(signature, place);
            byte[] candidate = Inside.candidate(code, id, q, text, changed);
            require(!same(candidate, Inside.publicHash(code, seed, id, q)));
            show("candidate_with_octet_" + place + "_xor_1", candidate);
        }
        byte[] other = "another text".getBytes(StandardCharsets.US_ASCII);
        show("candidate_for_text_" + hex(other), Inside.candidate(code, id, q, other, signature));
        show("candidate_for_q_plus_1", Inside.candidate(code, id, q + 1, text, signature));
    }

    // Trees

    private static void printTrees() throws Exception {
        for (LMSigParameters tree : TREES) {
            boolean small = tree.getH() == 5;
            for (LMOtsParameters set : SETS) {
                printTree(tree, set, small ? SEED_A : SEED_B, small ? ID_A : ID_B);
            }
        }
    }

    private static void printTree(LMSigParameters tree, LMOtsParameters set, byte[] seed, byte[] id) throws Exception {
        int leaves = 1 << tree.getH();
        LMSPrivateKeyParameters first = new LMSPrivateKeyParameters(tree, set, 0, id, leaves, seed);
        byte[] key = first.getPublicKey().getEncoded();
        begin("tree, tree code " + tree.getType() + ", ots code " + set.getType());
        show("tree", tree.getType());
        show("ots", set.getType());
        show("seed", seed);
        show("id", id);
        show("public_key", key);
        for (int q : new int[] {0, leaves / 2 + leaves / 8 + 1, leaves - 1}) {
            byte[] text = ("text of leaf " + q).getBytes(StandardCharsets.US_ASCII);
            LMSSigner signer = new LMSSigner();
            signer.init(true, new LMSPrivateKeyParameters(tree, set, q, id, leaves, seed));
            byte[] signature = signer.generateSignature(text);
            require(isValid(new LMSSigner(), first.getPublicKey(), text, signature));
            begin("tree signature, tree code " + tree.getType() + ", ots code " + set.getType() + ", q " + q);
            show("tree", tree.getType());
            show("ots", set.getType());
            show("seed", seed);
            show("id", id);
            show("public_key", key);
            show("q", q);
            show("text", text);
            show("length", signature.length);
            show("sha256", sha256(signature));
            show("signature", signature);
            int path = 44 + 32 * set.getP();
            showRefused(new LMSSigner(), first.getPublicKey(), text, signature,
                    3, 7, 8, 40, path - 5, path - 1, path, path + 32 * tree.getH() - 1);
        }
    }

    // Levels of trees

    private static void printHss() throws Exception {
        LMSigParameters low = LMSigParameters.lms_sha256_n32_h5;
        LMSigParameters high = LMSigParameters.lms_sha256_n32_h10;
        LMSParameters small = new LMSParameters(low, LMOtsParameters.sha256_n32_w8);
        LMSParameters large = new LMSParameters(high, LMOtsParameters.sha256_n32_w4);
        printLevels(0, small);
        printLevels(31, small);
        printLevels(0, small, small);
        printLevels(37, small, small);
        printLevels(37, large, small);
        printLevels(37, small, new LMSParameters(low, LMOtsParameters.sha256_n32_w2));
        printLevels(5, small, small, small, small, small, small, small, small);
        printLevels(35, new LMSParameters(low, LMOtsParameters.sha256_n32_w1),
                new LMSParameters(low, LMOtsParameters.sha256_n32_w2), new LMSParameters(low, LMOtsParameters.sha256_n32_w4),
                small, new LMSParameters(high, LMOtsParameters.sha256_n32_w1),
                new LMSParameters(high, LMOtsParameters.sha256_n32_w2), large, small);
    }

    /** The signature that the key gives after {@code before} others. */
    private static void printLevels(int before, LMSParameters... sets) throws Exception {
        HSSKeyPairGenerator generator = new HSSKeyPairGenerator();
        generator.init(new HSSKeyGenerationParameters(sets, new FixedRandom(SEED_A, ID_A)));
        AsymmetricCipherKeyPair pair = generator.generateKeyPair();
        HSSPrivateKeyParameters secret = (HSSPrivateKeyParameters) pair.getPrivate();
        HSSPublicKeyParameters open = (HSSPublicKeyParameters) pair.getPublic();
        byte[] text = ("text number " + before).getBytes(StandardCharsets.US_ASCII);
        HSSSigner signer = new HSSSigner();
        signer.init(true, secret);
        for (int i = 0; i < before; i++) {
            signer.generateSignature(text);
        }
        byte[] signature = signer.generateSignature(text);
        require(isValid(new HSSSigner(), open, text, signature));
        begin("levels, L " + sets.length + ", signature " + before);
        show("levels", sets.length);
        show("public_key", open.getEncoded());
        List<LMSPrivateKeyParameters> levels = Inside.levels(secret);
        for (int i = 0; i < levels.size(); i++) {
            // Each key has moved on past the leaf that it signed with.
            LMSPrivateKeyParameters level = levels.get(i);
            show("level_" + i, level.getSigParameters().getType() + " " + level.getOtsParameters().getType() + " "
                    + hex(level.getMasterSecret()) + " " + hex(level.getI()) + " " + (level.getIndex() - 1));
        }
        show("text", text);
        show("length", signature.length);
        show("sha256", sha256(signature));
        show("signature", signature);
        int first = 4 + signatureLength(sets[0]);
        if (sets.length == 1) {
            showRefused(new HSSSigner(), open, text, signature, 3, 7, 11, 12, 44, first - 1);
        } else {
            showRefused(new HSSSigner(), open, text, signature,
                    3, 7, 11, 12, 44, first - 1, first + 3, first + 7, first + 8, first + 55, first + 56 + 3, signature.length - 1);
        }
    }

    private static int signatureLength(LMSParameters set) {
        return 44 + 32 * set.getLMOTSParam().getP() + 32 * set.getLMSigParam().getH();
    }

    // Printing

    private static void showRefused(MessageSigner signer, LMSKeyParameters key, byte[] text, byte[] signature, int... places) {
        StringBuilder refused = new StringBuilder();
        for (int place : places) {
            require(!isValid(signer, key, text, flipped(signature, place)));
            refused.append(refused.length() == 0 ? "" : " ").append(place);
        }
        show("refused_where_xor_1_at", refused);
    }

    private static boolean isValid(MessageSigner verifier, LMSKeyParameters key, byte[] text, byte[] signature) {
        try {
            verifier.init(false, key);
            return verifier.verifySignature(text, signature);
        } catch (RuntimeException fault) {
            // Octets that aren't read as a signature are refused by a fault.
            return false;
        }
    }

    private static void begin(String title) {
        System.out.println();
        System.out.println("[" + title + "]");
    }

    private static void show(String name, Object value) {
        System.out.println((name + " " + value).stripTrailing());
    }

    private static void show(String name, byte[] octets) {
        show(name, hex(octets));
    }

    private static String hex(byte[] octets) {
        return HexFormat.of().formatHex(octets);
    }

    private static byte[] sha256(byte[] octets) throws Exception {
        return MessageDigest.getInstance("SHA-256").digest(octets);
    }

    private static byte[] flipped(byte[] octets, int place) {
        byte[] changed = octets.clone();
        changed[place] ^= 1;
        return changed;
    }

    private static boolean same(byte[] one, byte[] other) {
        return MessageDigest.isEqual(one, other);
    }

    private static byte[] run(int first, int step, int count) {
        byte[] octets = new byte[count];
        for (int i = 0; i < count; i++) {
            octets[i] = (byte) (first + step * i);
        }
        return octets;
    }

    private static void require(boolean holds) {
        if (!holds) {
            throw new IllegalStateException("Bouncy Castle answers otherwise");
        }
    }

    /** Gives a fixed seed where 32 octets are asked for and a fixed identifier where 16 are. */
    private static final class FixedRandom extends SecureRandom {
        private static final long serialVersionUID = 1L;
        private final transient byte[] seed;
        private final transient byte[] id;

        FixedRandom(byte[] seed, byte[] id) {
            this.seed = seed;
            this.id = id;
        }

        @Override
        public void nextBytes(byte[] into) {
            byte[] from = into.length == 32 ? seed : id;
            if (from.length != into.length) {
                throw new IllegalStateException("an unknown draw of " + into.length + " octets");
            }
            System.arraycopy(from, 0, into, 0, into.length);
        }
    }
}
