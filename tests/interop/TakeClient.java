import java.nio.file.Files;
import java.nio.file.Path;
import java.security.SecureRandom;
import java.time.Instant;
import java.util.Arrays;
import java.util.List;
import java.util.Locale;
import org.bouncycastle.asn1.ASN1Encodable;
import org.bouncycastle.asn1.ASN1GeneralizedTime;
import org.bouncycastle.asn1.DERNull;
import org.bouncycastle.asn1.cmp.CMPCertificate;
import org.bouncycastle.asn1.cmp.CertRepMessage;
import org.bouncycastle.asn1.cmp.CertResponse;
import org.bouncycastle.asn1.cmp.ErrorMsgContent;
import org.bouncycastle.asn1.cmp.InfoTypeAndValue;
import org.bouncycastle.asn1.cmp.PKIBody;
import org.bouncycastle.asn1.cmp.PKIFailureInfo;
import org.bouncycastle.asn1.cmp.PKIHeader;
import org.bouncycastle.asn1.cmp.PKIMessage;
import org.bouncycastle.asn1.cmp.PKIStatus;
import org.bouncycastle.asn1.x500.X500Name;
import org.bouncycastle.asn1.x509.Certificate;
import org.bouncycastle.asn1.x509.Extension;
import org.bouncycastle.asn1.x509.Extensions;
import org.bouncycastle.asn1.x509.KeyUsage;
import org.bouncycastle.pqc.crypto.lms.HSSPublicKeyParameters;
import org.bouncycastle.pqc.crypto.lms.HSSSigner;

/**
 * A device over Bouncy Castle, step by step, in a folder of files. Each step reads the reply to the one before, compares it with
 * what is owed, and writes its request. It prints one line for each comparison, `agreed WHAT` or `DIFFERS WHAT`.
 *
 * <p>Steps: `request` writes ir.der; `wrong` reads ip.der and writes a certConf with another recipNonce and the certificates;
 * `confirm` reads the refusal of that, error.der, and writes certconf.der; `done` reads pkiconf.der; `stopped` reads
 * failure.der, the reply to ir.der where a device of the authority failed.
 */
public final class TakeClient {
    private final Path folder;
    private final PKIMessage request;

    private TakeClient(Path folder) throws Exception {
        this.folder = folder;
        this.request = read("ir.der");
    }

    public static void main(String[] words) throws Exception {
        Path folder = Path.of(words[1]);
        if (words[0].equals("request")) {
            TakeVectors.Tree device = new TakeVectors.Tree(random(32), random(16));
            write(folder, "ir.der", TakeVectors.request(device, Instant.now().getEpochSecond(), random(16)));
            return;
        }
        TakeClient client = new TakeClient(folder);
        switch (words[0]) {
            case "wrong" -> client.readIp();
            case "confirm" -> client.readRefusal();
            case "done" -> client.readConfirmation();
            case "stopped" -> client.readFailure();
            default -> throw new IllegalArgumentException(words[0]);
        }
    }

    // ---- the steps

    private void readIp() throws Exception {
        PKIMessage ip = read("ip.der");
        checkHeader("ip", ip, request);
        check("its body is an ip", ip.getBody().getType() == PKIBody.TYPE_INIT_REP);
        CertRepMessage content = CertRepMessage.getInstance(ip.getBody().getContent());
        CertResponse response = content.getResponse()[0];
        check("one response, to request 0", content.getResponse().length == 1 && response.getCertReqId().intValueExact() == 0);
        check("status accepted", response.getStatus().getStatus().intValue() == PKIStatus.GRANTED);
        check("one certificate in caPubs", content.getCaPubs().length == 1);
        Certificate root = content.getCaPubs()[0].getX509v3PKCert();
        Certificate granted = response.getCertifiedKeyPair().getCertOrEncCert().getCertificate().getX509v3PKCert();
        checkWaitTime(ip.getHeader());
        checkRoot(root);
        checkGranted(granted, root);
        write(folder, "root.der", root);
        write(folder, "certificate.der", granted);
        write(folder, "certconf.der", confirmation(granted, random(16)));
    }

    private void readRefusal() throws Exception {
        PKIMessage wrong = read("certconf.der");
        PKIMessage error = read("error.der");
        checkHeader("error", error, wrong);
        ErrorMsgContent content = ErrorMsgContent.getInstance(error.getBody().getContent());
        check("badRecipientNonce, in failInfo and in words", isReason(content, "badRecipientNonce", PKIFailureInfo.badRecipientNonce));
        Certificate granted = Certificate.getInstance(Files.readAllBytes(folder.resolve("certificate.der")));
        write(folder, "certconf.der", confirmation(granted, read("ip.der").getHeader().getSenderNonce().getOctets()));
    }

    private void readConfirmation() throws Exception {
        PKIMessage confirmation = read("pkiconf.der");
        checkHeader("pkiconf", confirmation, read("certconf.der"));
        check("its body is a pkiconf", confirmation.getBody().getType() == PKIBody.TYPE_CONFIRM
                && confirmation.getBody().getContent().toASN1Primitive().equals(DERNull.INSTANCE));
    }

    private void readFailure() throws Exception {
        PKIMessage failure = read("failure.der");
        PKIHeader header = failure.getHeader();
        check("systemFailure has no protection", failure.getProtection() == null && header.getProtectionAlg() == null);
        check("systemFailure has no nonce of its own", header.getSenderNonce() == null);
        check("systemFailure answers the request", header.getTransactionID().equals(request.getHeader().getTransactionID())
                && header.getRecipNonce().equals(request.getHeader().getSenderNonce()));
        check("systemFailure, in failInfo and in words",
                isReason(ErrorMsgContent.getInstance(failure.getBody().getContent()), "systemFailure", PKIFailureInfo.systemFailure));
    }

    // ---- what is compared

    private void checkHeader(String name, PKIMessage reply, PKIMessage to) throws Exception {
        PKIHeader header = reply.getHeader();
        PKIHeader asked = to.getHeader();
        check(name + ": pvno", header.getPvno().intValueExact() == 2);
        check(name + ": names", header.getSender().getName().equals(TakeVectors.AUTHORITY) && header.getRecipient().equals(asked.getSender()));
        check(name + ": transactionID and recipNonce", header.getTransactionID().equals(asked.getTransactionID())
                && header.getRecipNonce().equals(asked.getSenderNonce()));
        check(name + ": senderNonce of 16 octets", header.getSenderNonce().getOctets().length == 16);
        check(name + ": senderKID", Arrays.equals(header.getSenderKID().getOctets(), TakeVectors.REFERENCE));
        long behind = Instant.now().toEpochMilli() - header.getMessageTime().getDate().getTime();
        check(name + ": messageTime is the present", behind >= -5_000 && behind < 120_000);
        check(name + ": MAC", Arrays.equals(reply.getProtection().getOctets(), TakeVectors.mac(header, reply.getBody())));
    }

    private void checkWaitTime(PKIHeader header) throws Exception {
        InfoTypeAndValue[] info = header.getGeneralInfo();
        String told = TakeVectors.generalized(header.getMessageTime().getDate().getTime() / 1000 + 300).getTimeString();
        check("confirmWaitTime is 300 seconds later", info.length == 1 && info[0].getInfoType().getId().equals("1.3.6.1.5.5.7.4.14")
                && ASN1GeneralizedTime.getInstance(info[0].getInfoValue()).getTimeString().equals(told));
    }

    private void checkRoot(Certificate root) throws Exception {
        check("root: serial 1, CN=Fleet CA", root.getSerialNumber().getValue().intValueExact() == 1
                && root.getSubject().equals(TakeVectors.AUTHORITY) && root.getIssuer().equals(TakeVectors.AUTHORITY));
        Extensions extensions = root.getTBSCertificate().getExtensions();
        check("root: keyCertSign", KeyUsage.fromExtensions(extensions).hasUsages(KeyUsage.keyCertSign));
        check("root: its own signature", isSigned(root, root));
    }

    private void checkGranted(Certificate granted, Certificate root) throws Exception {
        check("certificate: serial 3, CN=device-1", granted.getSerialNumber().getValue().intValueExact() == 3
                && granted.getSubject().equals(TakeVectors.DEVICE) && granted.getIssuer().equals(root.getSubject()));
        long seconds = (granted.getEndDate().getDate().getTime() - granted.getStartDate().getDate().getTime()) / 1000;
        check("certificate: 365 days", seconds == 365 * 86_400 - 1);
        Extensions extensions = granted.getTBSCertificate().getExtensions();
        check("certificate: key identifiers and digitalSignature", List.of(extensions.getExtensionOIDs()).equals(
                List.of(Extension.authorityKeyIdentifier, Extension.subjectKeyIdentifier, Extension.keyUsage))
                && KeyUsage.fromExtensions(extensions).hasUsages(KeyUsage.digitalSignature));
        check("certificate: the key asked for", isAskedKey(granted));
        check("certificate: the root's signature", isSigned(granted, root));
    }

    private boolean isAskedKey(Certificate granted) throws Exception {
        byte[] key = granted.getSubjectPublicKeyInfo().getEncoded("DER");
        return indexOf(request.getEncoded("DER"), Arrays.copyOfRange(key, 2, key.length)) >= 0;
    }

    private static boolean isSigned(Certificate certificate, Certificate by) throws Exception {
        HSSSigner verifier = new HSSSigner();
        verifier.init(false, HSSPublicKeyParameters.getInstance(by.getSubjectPublicKeyInfo().getPublicKeyData().getOctets()));
        return certificate.getSignatureAlgorithm().getAlgorithm().equals(TakeVectors.HSS_LMS)
                && verifier.verifySignature(certificate.getTBSCertificate().getEncoded("DER"), certificate.getSignature().getOctets());
    }

    private static boolean isReason(ErrorMsgContent content, String name, int reason) {
        return content.getPKIStatusInfo().getStatus().intValue() == PKIStatus.REJECTION
                && content.getPKIStatusInfo().getStatusString().getStringAtUTF8(0).getString().equals(name)
                && content.getPKIStatusInfo().getFailInfo().intValue() == reason;
    }

    // ---- files

    private static PKIMessage confirmation(Certificate granted, byte[] received) throws Exception {
        return TakeVectors.confirmation(new CMPCertificate(granted), Instant.now().getEpochSecond(), random(16), received);
    }

    private PKIMessage read(String name) throws Exception {
        return PKIMessage.getInstance(Files.readAllBytes(folder.resolve(name)));
    }

    private static void write(Path folder, String name, ASN1Encodable value) throws Exception {
        Files.write(folder.resolve(name), value.toASN1Primitive().getEncoded("DER"));
    }

    private static byte[] random(int count) {
        byte[] octets = new byte[count];
        new SecureRandom().nextBytes(octets);
        return octets;
    }

    private static int indexOf(byte[] all, byte[] part) {
        return TakeVectors.hex(all).toLowerCase(Locale.ROOT).indexOf(TakeVectors.hex(part));
    }

    private static void check(String what, boolean holds) {
        System.out.println((holds ? "agreed " : "DIFFERS ") + what);
    }
}
