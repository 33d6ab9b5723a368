import java.util.Arrays;
import java.util.function.IntConsumer;
import org.bouncycastle.pqc.crypto.lms.Inside;
import org.bouncycastle.pqc.crypto.lms.LMOtsParameters;
import org.bouncycastle.pqc.crypto.lms.LMSPrivateKeyParameters;
import org.bouncycastle.pqc.crypto.lms.LMSPublicKeyParameters;
import org.bouncycastle.pqc.crypto.lms.LMSSigner;
import org.bouncycastle.pqc.crypto.lms.LMSigParameters;

/**
 * Times Bouncy Castle's LM-OTS and LMS on one core.
 *
 * <p>Prints a line for each timing: its name, a tab, and the nanoseconds of one operation, the least of some
 * turns after the virtual machine is warm. With the word {@code quick} the tree of height 15 is left out.
 */
public final class LmsBench {
    private static final byte[] SEED = run(0x00, 32);
    private static final byte[] ID = run(0x80, 16);
    private static final byte[] TEXT = run(0x20, 32);
    private static final LMOtsParameters W4 = LMOtsParameters.sha256_n32_w4;
    private static final LMOtsParameters W8 = LMOtsParameters.sha256_n32_w8;

    public static void main(String[] words) throws Exception {
        for (int code = 1; code <= 4; code++) {
            timeOneTime(code);
        }
        timeTree("h5 w8", LMSigParameters.lms_sha256_n32_h5, W8, 8, 25);
        timeTree("h5 w4", LMSigParameters.lms_sha256_n32_h5, W4, 60, 25);
        timeTree("h10 w4", LMSigParameters.lms_sha256_n32_h10, W4, 3, 25);
        if (words.length == 0 || !words[0].equals("quick")) {
            timeTree("h15 w4", LMSigParameters.lms_sha256_n32_h15, W4, 1, 3);
        }
    }

    private static void timeOneTime(int code) throws Exception {
        String width = " w" + (1 << (code - 1));
        int count = code == 4 ? 1 : 5;
        int turns = code == 4 ? 400 : 800;
        byte[] signature = Inside.signOts(code, SEED, ID, 0, TEXT);
        show("public_hash" + width, least(count, turns, q -> Inside.publicHash(code, SEED, ID, q)));
        show("sign_ots" + width, least(count, turns, q -> quietly(() -> Inside.signOts(code, SEED, ID, q, TEXT))));
        show("candidate" + width, least(count, turns, q -> quietly(() -> Inside.candidate(code, ID, 0, TEXT, signature))));
    }

    private static void timeTree(String set, LMSigParameters tree, LMOtsParameters ots, int turns, int signatures) {
        show("grow " + set, least(1, turns, turn -> grow(tree, ots)));
        int leaves = 1 << tree.getH();
        LMSPrivateKeyParameters key = new LMSPrivateKeyParameters(tree, ots, 0, ID, leaves, SEED);
        LMSPublicKeyParameters open = key.getPublicKey();
        LMSSigner signer = new LMSSigner();
        signer.init(true, key);
        byte[] signature = signer.generateSignature(TEXT);
        timeLeaves(set, tree, ots, Math.min(turns, 8), signatures);
        LMSSigner verifier = new LMSSigner();
        verifier.init(false, open);
        show("verify " + set, least(1, 400, turn -> {
            if (!verifier.verifySignature(TEXT, signature)) {
                throw new IllegalStateException("a signature isn't verified");
            }
        }));
    }

    /** Signs by the first leaves of some keys with one seed: what a leaf takes is the least of its times. */
    private static void timeLeaves(String set, LMSigParameters tree, LMOtsParameters ots, int keys, int leaves) {
        long[] times = new long[leaves];
        Arrays.fill(times, Long.MAX_VALUE);
        for (int turn = 0; turn < keys; turn++) {
            LMSPrivateKeyParameters key = new LMSPrivateKeyParameters(tree, ots, 0, ID, 1 << tree.getH(), SEED);
            key.getPublicKey();
            LMSSigner signer = new LMSSigner();
            signer.init(true, key);
            for (int leaf = 0; leaf < leaves; leaf++) {
                long start = System.nanoTime();
                signer.generateSignature(TEXT);
                times[leaf] = Math.min(times[leaf], System.nanoTime() - start);
            }
        }
        show("sign " + set + ", first leaf", times[0]);
        show("sign " + set + ", cheapest leaf", Arrays.stream(times).min().getAsLong());
        show("sign " + set + ", average leaf", Arrays.stream(times).sum() / leaves);
    }

    private static void grow(LMSigParameters tree, LMOtsParameters ots) {
        new LMSPrivateKeyParameters(tree, ots, 0, ID, 1 << tree.getH(), SEED).getPublicKey();
    }

    /** The least nanoseconds of one operation, in short turns of {@code count} operations; the first ones warm up. */
    private static long least(int count, int turns, IntConsumer operation) {
        long least = Long.MAX_VALUE;
        for (int turn = 0; turn < turns; turn++) {
            long start = System.nanoTime();
            for (int i = 0; i < count; i++) {
                operation.accept(i);
            }
            least = Math.min(least, (System.nanoTime() - start) / count);
        }
        return least;
    }

    private interface Fallible {
        void run() throws Exception;
    }

    private static void quietly(Fallible operation) {
        try {
            operation.run();
        } catch (Exception fault) {
            throw new IllegalStateException(fault);
        }
    }

    private static void show(String name, long nanoseconds) {
        System.out.println(name + "\t" + nanoseconds);
    }

    private static byte[] run(int first, int count) {
        byte[] octets = new byte[count];
        for (int i = 0; i < count; i++) {
            octets[i] = (byte) (first + i);
        }
        return octets;
    }
}
